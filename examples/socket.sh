#!/usr/bin/env bash
# A manager behind a local socket, for one client at a time: socat begins a shell for each that comes. Without `-t 3600` it would leave half a second behind the end of one side.
set -u
top=$(cd "$(dirname "$0")/.." && pwd)
folder=$(mktemp -d)
trap 'rm -rf "$folder"' EXIT
cd "$folder" || exit
mkdir bin && PATH=$folder/bin:$PATH
printf '#!/bin/sh\nexec %q "$@" 2>/dev/null\n' "${MQB:-$top/mqb}" >bin/mqb && chmod +x bin/mqb # the hints on standard error are for people

mqb init alpha.store alpha 0a0b0c0d-0e0f-1011-1213-141516171819 127.0.0.1
socat -t 3600 UNIX-LISTEN:alpha.sock,fork EXEC:"mqb shell alpha.store" &
listener=$!
trap 'kill $listener; rm -rf "$folder"' EXIT
until [ -S alpha.sock ]; do kill -0 $listener && sleep 0.02; done
printf '%s\n' 'create orders tx 9 none' 'commit send,DIRECT=OS:alpha\PRIVATE$\orders,-,-,-,-,-,one' 'take other' | socat -t 3600 - UNIX-CONNECT:alpha.sock
printf '%s\n' 'take orders' list | socat -t 3600 - UNIX-CONNECT:alpha.sock
{ echo tick; sleep 1; echo tick; } | socat -t 3600 - UNIX-CONNECT:alpha.sock # a client that is silent for a while
