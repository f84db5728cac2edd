#!/usr/bin/env bash
# The loop of docs/OPERATIONS.md, as its unit starts it: beta attends to its peers, and in between hands each order on and answers it in the transaction that takes it.
# Alpha only calls out: it pushes its orders, and fetches the answers.
set -u
top=$(cd "$(dirname "$0")/.." && pwd)
export MQB_PORT=${MQB_PORT:-18144} # another port than 1801, which may be taken
folder=$(mktemp -d)
trap 'rm -rf "$folder"' EXIT
cd "$folder" || exit
mkdir bin && PATH=$folder/bin:$PATH
printf '#!/bin/sh\nexec %q "$@" 2>/dev/null\n' "${MQB:-$top/mqb}" >bin/mqb && chmod +x bin/mqb # the hints on standard error are for people

cat >attending <<'END'
#!/bin/bash
while :; do
  mqb attend beta.store 1 || exit
  while order=$(mqb peek beta.store orders); do
    ./handle <<<"$order" || exit
    mqb commit beta.store take,orders 'send,DIRECT=OS:alpha\PRIVATE$\answers,-,-,d,-,-,done' || exit
  done
  mqb push beta.store alpha
  [ $? -ne 6 ] || exit 6
  sleep 0.2
done
END
cat >handle <<'END'
#!/bin/bash
read -r id _ _ _ _ _ _ _ _ body
echo "$id $(printf "\x${body:0:2}")" >>handled
END
cat >mqb.service <<'END'
[Unit]
Description=mqb, manager beta
Wants=network-online.target
After=network-online.target

[Service]
User=mqb
WorkingDirectory=/srv/mqb
Environment=MQB_WAIT=5000 MQB_HOLD=60
ExecStart=/bin/bash attending
Restart=on-failure
RestartSec=10
RestartPreventExitStatus=2 6 8

[Install]
WantedBy=multi-user.target
END
chmod +x handle

mqb init alpha.store alpha 0a0b0c0d-0e0f-1011-1213-141516171819 127.0.0.2 # at which nobody listens
mqb init beta.store beta 1a1b1c1d-1e1f-2021-2223-242526272829 127.0.0.1
mqb peer alpha.store beta 1a1b1c1d-1e1f-2021-2223-242526272829 127.0.0.1
mqb peer beta.store alpha 0a0b0c0d-0e0f-1011-1213-141516171819 127.0.0.2
mqb create alpha.store answers tx 1000 none
mqb create beta.store orders tx 1000 none
set -m # the loop is a group of its own, as a service is
env $(sed -n 's/^Environment=//p' mqb.service) $(sed -n 's/^ExecStart=//p' mqb.service) >log 2>&1 &
service=$!
set +m
trap 'kill -- -$service; rm -rf "$folder"' EXIT
mqb commit alpha.store 'send,DIRECT=OS:beta\PRIVATE$\orders,-,-,d,-,-,a' 'send,DIRECT=OS:beta\PRIVATE$\orders,-,-,d,-,-,b'
until mqb push alpha.store beta >pushed; do kill -0 $service || exit; sleep 0.1; done
cat pushed
mqb commit alpha.store 'send,DIRECT=OS:beta\PRIVATE$\orders,-,-,d,-,-,*70000' # more than one word of a command may have
until mqb list alpha.store | grep -q ' answers beta.1 beta.3 beta.5$'; do mqb fetch alpha.store beta 1 >fetched; sleep 2; done # beta attends until none comes for a second
cat handled
mqb list alpha.store
