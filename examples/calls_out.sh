#!/usr/bin/env bash
# Alpha can only call out: beta has an address for it at which nobody listens. One fetch brings alpha's messages to beta, and what waits there for alpha: that a message was
# refused, which puts it among the dead letters, that one was stored, as an answer in a queue, and a reply.
set -eu
top=$(cd "$(dirname "$0")/.." && pwd)
mqb() { "${MQB:-$top/mqb}" "$@"; }
export MQB_PORT=${MQB_PORT:-18142} # another port than 1801, which may be taken
alpha='alpha 0a0b0c0d-1112-1314-1516-1718191a1b1c 127.0.0.3'
beta='beta 2a2b2c2d-3132-3334-3536-3738393a3b3c 127.0.0.2'
stores=$(mktemp -d)
trap 'rm -rf "$stores"' EXIT
cd "$stores"

for manager in alpha beta; do mqb init $manager.store ${!manager}; done
mqb peer alpha.store $beta && mqb peer beta.store $alpha
mqb create alpha.store replies tx 100 none && mqb create alpha.store answers plain 100 none
mqb create beta.store orders tx 100 none && mqb create beta.store full tx 0 none
mqb commit alpha.store 'send,DIRECT=OS:beta\PRIVATE$\full,-,-,d,-,-,no'
mqb commit alpha.store 'send,DIRECT=OS:beta\PRIVATE$\orders,-,-,p,DIRECT=OS:alpha\PRIVATE$\answers,-,one'
mqb commit beta.store 'send,DIRECT=OS:alpha\PRIVATE$\replies,-,-,-,-,-,reply'
mqb serve beta.store 1 >served &
until grep -q ":$(printf %04X "$MQB_PORT") 00000000:0000 0A" /proc/net/tcp; do kill -0 $! && sleep 0.1; done # until beta listens
mqb fetch alpha.store beta 127.0.0.1 # beta moved: its store's address is another
wait $!
cat served
for manager in alpha beta; do mqb list $manager.store; done
