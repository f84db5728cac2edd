#!/usr/bin/env bash
# Two managers on this machine: a transaction of two messages goes from alpha to beta over a connection, and is taken there in order.
set -eu
top=$(cd "$(dirname "$0")/.." && pwd)
mqb() { "${MQB:-$top/mqb}" "$@"; }
export MQB_PORT=${MQB_PORT:-18141} # another port than 1801, which may be taken
alpha='alpha 0a0b0c0d-1112-1314-1516-1718191a1b1c 127.0.0.1'
beta='beta 2a2b2c2d-3132-3334-3536-3738393a3b3c 127.0.0.1'
stores=$(mktemp -d)
trap 'rm -rf "$stores"' EXIT
cd "$stores"

for manager in alpha beta; do mqb init $manager.store ${!manager}; done
mqb peer alpha.store $beta && mqb peer beta.store $alpha
mqb create beta.store orders tx 100 none
mqb commit alpha.store 'send,DIRECT=OS:beta\PRIVATE$\orders,-,-,-,-,-,one' 'send,DIRECT=OS:beta\PRIVATE$\orders,-,-,-,-,-,two'
mqb serve beta.store 1 >served &
until grep -q ":$(printf %04X "$MQB_PORT") 00000000:0000 0A" /proc/net/tcp; do kill -0 $! && sleep 0.1; done # until beta listens
mqb push alpha.store beta
wait $!
cat served
for manager in alpha beta; do mqb list $manager.store; done
mqb take beta.store orders && mqb take beta.store orders
