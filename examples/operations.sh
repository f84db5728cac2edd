#!/usr/bin/env bash
# The commands of docs/OPERATIONS.md, run in its order over stores that are made here; examples/attending.sh has those of the loop. An echo says what a status shows.
set -u
top=$(cd "$(dirname "$0")/.." && pwd)
export MQB_PORT=${MQB_PORT:-18143} # another port than 1801, which may be taken
says() { echo "status $?"; }
begin() { # begin NAME: the next part
  echo "== $1"
}
serving() { # waits until the last program that was started listens
  until grep -q ":$(printf %04X "$MQB_PORT") 00000000:0000 0A" /proc/net/tcp; do kill -0 $! || return; sleep 0.02; done
}
meet() { # meet FROM TO HOST: TO serves one connection, and FROM pushes to its HOST; what became of it the stores tell
  mqb serve "$2" 1 >/dev/null &
  serving
  mqb push "$1" "$3" >/dev/null
  wait $!
}
marks() { # marks STORE ..: the rows of what goes out and of what came in
  for store; do mqb list "$store" | grep -E ' (out|in) '; done
}
miss() { # miss ROW FROM TO HOST: they meet, with little patience, until one of them has this row
  local row=$1
  shift
  until marks "$1" "$2" | grep -qF "$row"; do MQB_WAIT=500 meet "$@"; done
  marks "$1" "$2"
}
folder=$(mktemp -d)
trap 'rm -rf "$folder"' EXIT
cd "$folder" || exit
mkdir bin && PATH=$folder/bin:$PATH
printf '#!/bin/sh\nexec %q "$@" 2>/dev/null\n' "${MQB:-$top/mqb}" >bin/mqb && chmod +x bin/mqb # the hints on standard error are for people

begin 'A pair'
mqb init alpha.store alpha 0a0b0c0d-0e0f-1011-1213-141516171819 127.0.0.1
mqb init beta.store beta 1a1b1c1d-1e1f-2021-2223-242526272829 127.0.0.1
chmod 600 alpha.store beta.store
mqb peer alpha.store beta 1a1b1c1d-1e1f-2021-2223-242526272829 127.0.0.1
mqb peer beta.store alpha 0a0b0c0d-0e0f-1011-1213-141516171819 127.0.0.1
mqb create beta.store orders tx 1000 none
mqb commit alpha.store 'send,DIRECT=OS:beta\PRIVATE$\orders,-,-,d,-,-,first'
mqb serve beta.store 1 &
sleep 1
serving
mqb push alpha.store beta
wait $!
mqb list alpha.store
mqb list beta.store
mqb peek beta.store orders 10
mqb take beta.store orders

begin 'One program a store'
mqb serve beta.store 1 >/dev/null &
holder=$!
serving
flock -n beta.store true
says
MQB_HOLD=0 mqb take beta.store orders
says
kill -STOP $holder # a halted program holds it, too
MQB_HOLD=0 mqb list beta.store
says
disown $holder # else this shell says that it was killed
kill -9 $holder
while kill -0 $holder 2>/dev/null; do sleep 0.02; done # and an ended one does not
MQB_HOLD=0 mqb take beta.store orders
says

begin 'A backup'
flock -s alpha.store cp alpha.store alpha.backup
mqb list alpha.backup

begin 'A move'
mkdir moved
flock -n beta.store cp beta.store moved/beta.store
sync moved/beta.store
mv beta.store beta.store.moved
mqb commit alpha.store 'send,DIRECT=OS:beta\PRIVATE$\orders,-,-,d,-,-,second'
mqb serve moved/beta.store 1 >/dev/null &
serving
mqb push alpha.store beta 127.0.0.1
wait $!
mqb take moved/beta.store orders
mv moved/beta.store beta.store

begin 'A full disk'
trap '' XFSZ # a write past the limit fails, as on a full disk, and ends no program
(ulimit -f 1 && mqb commit alpha.store 'send,DIRECT=OS:beta\PRIVATE$\orders,-,-,-,-,-,*2000')
says
marks alpha.store
mqb commit alpha.store 'send,DIRECT=OS:beta\PRIVATE$\orders,-,-,-,-,-,*2000'

begin 'A checkpoint'
(ulimit -f 4 && mqb checkpoint alpha.store) # the disk is full within it
says
marks alpha.store
mqb checkpoint alpha.store
marks alpha.store

begin 'A peer that is known by another host'
mqb init gamma.store gamma 2a2b2c2d-2e2f-3031-3233-343536373839 127.0.0.1
mqb peer gamma.store beta 1a1b1c1d-1e1f-2021-2223-242526272829 127.0.0.1
mqb peer beta.store gama 2a2b2c2d-2e2f-3031-3233-343536373839 127.0.0.1
mqb commit gamma.store 'send,DIRECT=OS:beta\PRIVATE$\orders,-,-,-,-,-,one'
miss 'in gama' gamma.store beta.store beta
mqb peer beta.store gamma 2a2b2c2d-2e2f-3031-3233-343536373839 127.0.0.1
says

begin 'A receiver that is made anew under its GUID'
meet alpha.store beta.store beta
rm beta.store
mqb init beta.store beta 1a1b1c1d-1e1f-2021-2223-242526272829 127.0.0.1
mqb peer beta.store alpha 0a0b0c0d-0e0f-1011-1213-141516171819 127.0.0.1
mqb create beta.store orders tx 1000 none
mqb commit alpha.store 'send,DIRECT=OS:beta\PRIVATE$\orders,-,-,d,-,-,fourth'
miss ' 4 4 3' alpha.store beta.store beta

begin 'A new manager in its place'
mqb init delta.store delta 3a3b3c3d-3e3f-4041-4243-444546474849 127.0.0.1
mqb peer delta.store alpha 0a0b0c0d-0e0f-1011-1213-141516171819 127.0.0.1
mqb create delta.store orders tx 1000 none
mqb peer alpha.store delta 3a3b3c3d-3e3f-4041-4243-444546474849 127.0.0.1
mqb commit alpha.store 'send,DIRECT=OS:delta\PRIVATE$\orders,-,-,d,-,-,fourth'
meet alpha.store delta.store delta
marks alpha.store delta.store

begin 'A sender that is made anew under its GUID, behind a second sequence'
mqb roll alpha.store 1
mqb commit alpha.store 'send,DIRECT=OS:delta\PRIVATE$\orders,-,-,-,-,-,fifth'
meet alpha.store delta.store delta
rm alpha.store
mqb init alpha.store alpha 0a0b0c0d-0e0f-1011-1213-141516171819 127.0.0.1
mqb peer alpha.store delta 3a3b3c3d-3e3f-4041-4243-444546474849 127.0.0.1
mqb commit alpha.store 'send,DIRECT=OS:delta\PRIVATE$\orders,-,-,-,-,-,sixth'
miss 'alpha out 1 DIRECT=OS:delta\PRIVATE$\orders 1 1 0' alpha.store delta.store delta

begin 'A sender that comes from a backup'
mqb init zeta.store zeta 4a4b4c4d-4e4f-5051-5253-545556575859 127.0.0.1
mqb peer zeta.store delta 3a3b3c3d-3e3f-4041-4243-444546474849 127.0.0.1
mqb peer delta.store zeta 4a4b4c4d-4e4f-5051-5253-545556575859 127.0.0.1
mqb commit zeta.store 'send,DIRECT=OS:delta\PRIVATE$\orders,-,-,-,-,-,one'
meet zeta.store delta.store delta
cp zeta.store zeta.backup
mqb commit zeta.store 'send,DIRECT=OS:delta\PRIVATE$\orders,-,-,-,-,-,two'
meet zeta.store delta.store delta
cp zeta.backup zeta.store
marks zeta.store delta.store # delta has decided more than zeta knows to have committed
mqb commit zeta.store 'send,DIRECT=OS:delta\PRIVATE$\orders,-,-,-,-,-,LOST'
meet zeta.store delta.store delta
marks zeta.store delta.store # and now nothing shows it any more
mqb purge delta.store orders
mqb list delta.store | grep queue

begin 'A message that is refused: without a flag it is gone'
mqb init eta.store eta 5a5b5c5d-5e5f-6061-6263-646566676869 127.0.0.1
mqb peer eta.store delta 3a3b3c3d-3e3f-4041-4243-444546474849 127.0.0.1
mqb peer delta.store eta 5a5b5c5d-5e5f-6061-6263-646566676869 127.0.0.1
mqb commit eta.store 'send,DIRECT=OS:delta\PRIVATE$\misspelt,-,-,-,-,-,gone' 'send,DIRECT=OS:delta\PRIVATE$\misspelt,-,-,dj,-,-,kept'
meet eta.store delta.store delta
meet delta.store eta.store eta
mqb list eta.store
mqb peek eta.store ';deadxact' 10
mqb take eta.store ';journal'
