#!/usr/bin/env bash
# A shell as its clients see it: client.py asks over a pipe; an output that is full lets one call be made; an input may fail; a signal is a kill, and lets go of the store; in staying.py
# two managers stay open, and one of them attends, fetches, takes and commits in turn.
set -u
top=$(cd "$(dirname "$0")/.." && pwd)
says() { echo "status $?"; }
folder=$(mktemp -d)
trap 'rm -rf "$folder"' EXIT
cd "$folder" || exit
mkdir bin && PATH=$folder/bin:$PATH
printf '#!/bin/sh\nexec %q "$@" 2>/dev/null\n' "${MQB:-$top/mqb}" >bin/mqb && chmod +x bin/mqb # the hints on standard error are for people

mqb init alpha.store alpha 0a0b0c0d-0e0f-1011-1213-141516171819 127.0.0.1
mqb create alpha.store orders tx 9 none
"$top/examples/client.py"

echo '== an output that is full'
printf 'commit send,DIRECT=OS:alpha\\PRIVATE$\\orders,-,-,-,-,-,%s\n' three four | mqb shell alpha.store >/dev/full
says
mqb take alpha.store orders
mqb take alpha.store orders

echo '== an input that cannot be read'
mqb shell alpha.store <.
says

echo '== a signal'
mkfifo lines
mqb shell alpha.store <lines >said &
exec 8>lines
echo 'take orders' >&8
until grep -qs '^end ' said; do sleep 0.02; done
flock -n alpha.store true || echo 'it is held'
disown $! # else this shell says that it was killed
kill $!
while kill -0 $! 2>/dev/null; do sleep 0.02; done
cat said
flock -n alpha.store true && mqb list alpha.store

echo '== two managers that stay open'
"$top/examples/staying.py"
