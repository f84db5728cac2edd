#!/usr/bin/env bash
# A worker at beta: orders come from alpha, the worker takes each and answers it in the transaction that takes it, and alpha fetches the answers and takes them. One program holds
# a store at a time, so `serve`, `work` and `serve` again go in turn.
set -eu
top=$(cd "$(dirname "$0")/.." && pwd)
mqb() { "${MQB:-$top/mqb}" "$@"; }
work() { "${WORK:-$top/mqb}" work "$@"; }
export MQB_PORT=${MQB_PORT:-18146} # another port than 1801, which may be taken
alpha='alpha 0a0b0c0d-1112-1314-1516-1718191a1b1c 127.0.0.1'
beta='beta 2a2b2c2d-3132-3334-3536-3738393a3b3c 127.0.0.1'
stores=$(mktemp -d)
trap 'rm -rf "$stores"' EXIT
cd "$stores"
serve() { # beta serves one connection behind this script, which waits until it listens
  mqb serve beta.store 1 >served &
  until grep -q ":$(printf %04X "$MQB_PORT") 00000000:0000 0A" /proc/net/tcp; do kill -0 $! && sleep 0.1; done
}

for manager in alpha beta; do mqb init $manager.store ${!manager}; done
mqb peer alpha.store $beta && mqb peer beta.store $alpha
mqb create alpha.store answers tx 100 none && mqb create beta.store orders tx 100 none
mqb commit alpha.store 'send,DIRECT=OS:beta\PRIVATE$\orders,-,-,-,-,DIRECT=OS:alpha\PRIVATE$\answers,one' 'send,DIRECT=OS:beta\PRIVATE$\orders,-,-,-,-,-,two' 'send,DIRECT=OS:beta\PRIVATE$\orders,-,-,-,-,DIRECT=OS:alpha\PRIVATE$\answers,three'
serve
mqb push alpha.store beta
wait $!
work beta.store orders 2 ok:
work beta.store orders 10 ok:
serve
mqb fetch alpha.store beta 1
wait $!
for manager in alpha beta; do mqb list $manager.store; done
mqb take alpha.store answers && mqb take alpha.store answers
