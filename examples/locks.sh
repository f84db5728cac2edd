#!/usr/bin/env bash
# One program a store: each word that writes finds the store in use, by a `serve`, a `shell` and flock(1), and is refused where it does not wait (MQB_HOLD=0); where the store is let go
# within its wait, it does its work. `list` and `peek` share a store with one another, and with no word that writes.
set -u
top=$(cd "$(dirname "$0")/.." && pwd)
mqb() { "${MQB:-$top/mqb}" "$@" 2>/dev/null; } # the hints on standard error are for people
export MQB_PORT=${MQB_PORT:-18145} MQB_WAIT=5000 # another port than 1801, which may be taken
alpha='alpha 0a0b0c0d-1112-1314-1516-1718191a1b1c 127.0.0.1'
beta='beta 2a2b2c2d-3132-3334-3536-3738393a3b3c 127.0.0.1'
folder=$(mktemp -d)
trap 'rm -rf "$folder"' EXIT
cd "$folder" || exit

words=(init peer create send commit take purge tick roll checkpoint shell serve attend probe push fetch list peek)
declare -A call=(
  [init]="init alpha.store $alpha"
  [peer]='peer alpha.store gamma 3a3b3c3d-4142-4344-4546-4748494a4b4c 127.0.0.1'
  [create]='create alpha.store more tx 100 none'
  [send]='send alpha.store recoverable 3 send,DIRECT=OS:.\PRIVATE$\notes,-,-,-,-,-,one'
  [commit]='commit alpha.store take,orders send,DIRECT=OS:beta\PRIVATE$\orders,-,-,-,-,-,one'
  [take]='take alpha.store orders' [purge]='purge alpha.store orders' [tick]='tick alpha.store' [roll]='roll alpha.store 10' [checkpoint]='checkpoint alpha.store' [shell]='shell alpha.store'
  [serve]='serve alpha.store 1' [attend]='attend alpha.store 4' [probe]='probe alpha.store' [push]='push alpha.store beta' [fetch]='fetch alpha.store beta 1'
  [list]='list alpha.store' [peek]='peek alpha.store orders'
)

mqb init alpha.first $alpha && mqb init beta.first $beta
mqb peer alpha.first $beta && mqb peer beta.first $alpha
mqb create alpha.first orders tx 100 none && mqb create alpha.first notes plain 100 none && mqb create beta.first orders tx 100 none
mqb commit alpha.first 'send,DIRECT=OS:.\PRIVATE$\orders,-,-,-,-,-,one'

listens() { # listens PORT: whether somebody listens there
  grep -q ":$(printf %04X "$1") 00000000:0000 0A" /proc/net/tcp
}
is_held() { # is_held FILE: whether another program writes it
  ! flock -ns "$1" true
}
refused() { # refused BY: each word, without a wait, beside what holds the store; and those alone are told that are not refused
  local word said
  for word in "${words[@]}"; do
    said=$(MQB_HOLD=0 mqb ${call[$word]} </dev/null)
    [ $? -eq 6 ] || echo "$word: $said"
  done
  echo "$1: the others are refused"
}
waits() { # waits WORD PORT: the word, in a folder of its own, begins while the store is held, and the store is let go a little later
  local word=$1
  export MQB_PORT=$2
  mkdir "$word" && cd "$word" || return
  if [ "$word" = init ]; then : >alpha.store; else cp ../alpha.first alpha.store; fi
  cp ../beta.first beta.store
  case $word in
    push | fetch) mqb serve beta.store 1 >/dev/null & until listens "$MQB_PORT"; do sleep 0.02; done ;;
  esac
  flock alpha.store sh -c 'until [ -e begun ]; do sleep 0.02; done; sleep 0.5; : >let_go' &
  until is_held alpha.store; do sleep 0.02; done
  : >begun
  case $word in
    serve | attend) { until listens "$MQB_PORT"; do [ ! -s said ] || exit; sleep 0.02; done; mqb push beta.store alpha >/dev/null; } & ;;
  esac
  mqb ${call[$word]} </dev/null >said
  echo "status $?" >>said
  [ -e let_go ] || echo 'it did not wait' >>said
  wait
}

cp alpha.first alpha.store
mqb serve alpha.store 1 >/dev/null &
until listens "$MQB_PORT"; do sleep 0.02; done
refused 'beside serve'
mqb push beta.first alpha # the connection that serve waits for
wait
mkfifo lines
mqb shell alpha.store <lines &
exec 8>lines
until is_held alpha.store; do sleep 0.02; done
refused 'beside a shell'
exec 8>&- # the end of its input
wait
exec 9<alpha.store
flock 9
refused 'beside flock'
flock -s 9
refused 'beside flock -s'
exec 9<&-
for at in "${!words[@]}"; do
  waits "${words[at]}" $((MQB_PORT + at)) &
done
wait
for word in "${words[@]}"; do
  echo "$word, once it is let go:" && cat "$word/said"
done
