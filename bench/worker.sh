#!/usr/bin/env bash
# bench/worker.sh killed   a worker is killed KILLS times (200), at random moments, while it works through MESSAGES (2,000): each is answered once, in order
# bench/worker.sh due      of MESSAGES (100,000) the first half is due: how much of a processor a worker takes for the other half, and for as many where none is due;
#                          then the same of half as many: the time is linear in the queue where the first two numbers are some twice the last two
# A kill comes up to two milliseconds behind one of the first LINES lines (6) of a worker, or of its start. MQB and WORK name other programs than `./mqb --where` and
# `./mqb --where work` do, and TMPDIR another folder for the stores: on a disk in memory a step waits for no disk.
#
# Seen, on a machine with six times as many busy programs as processors: of 200 kills 164 came behind an answer; 1,627 lines of answers came before the last kill and 320 behind it, so 53 answers had
# been given whose line was not yet written, and each of the 2,000 messages was answered once, in order. With the first half due a worker took the other half of 10,000, 20,000, 25,000, 50,000 and 100,000
# messages in 0.09, 0.18, 0.22, 0.61 and 0.60 seconds of a processor (0.02 to 0.15 of the system's beside), and without due ones those of 10,000, 20,000 and 50,000 in 0.09, 0.18 and 0.36, with the stores in
# memory: no more than linear, beside busy programs that blur it.
set -u
top=$(cd "$(dirname "$0")/.." && pwd)
mqb=${MQB:-$("$top/mqb" --where)} work=${WORK:-$("$top/mqb" --where work)}
[ -x "$mqb" ] && [ -x "$work" ] || exit
folder=$(mktemp -d)
trap 'rm -rf "$folder"' EXIT
cd "$folder" || exit

store() { # store PATH: of alpha, with the queues orders and replies
  "$mqb" init "$1" alpha 0a0b0c0d-1112-1314-1516-1718191a1b1c 10.0.0.1 >/dev/null
  for queue in orders replies; do "$mqb" create "$1" "$queue" tx 4000000000 none >/dev/null; done
}
fill() { # fill PATH LIFE FIRST LAST: with messages of these bodies that ask to be answered, 64 in a transaction
  local number sends=()
  for ((number = $3; number <= $4; number++)); do
    sends+=("send,DIRECT=OS:.\\PRIVATE\$\\orders,-,$2,-,-,DIRECT=OS:.\\PRIVATE\$\\replies,$number")
    [ ${#sends[@]} -eq 64 ] || [ "$number" -eq "$4" ] || continue
    "$mqb" commit "$1" "${sends[@]}" >/dev/null || exit
    sends=()
  done
}
answers() { # answers LAST: the bodies of the answers to messages of the bodies from 1 on
  local number
  for ((number = 1; number <= $1; number++)); do printf 'ok:%s' "$number" | od -An -v -tx1 | tr -d ' \n'; echo; done
}

case ${1-} in
  killed)
    messages=${MESSAGES:-2000} kills=${KILLS:-200} told=0 further=0
    store S
    fill S - 1 "$messages"
    for ((kill = 0; kill < kills; kill++)); do
      exec {lines}< <(exec "$work" work S orders 1000000 ok:)
      worker=$! read=0
      for ((left = RANDOM % ${LINES:-6}; left > 0; left--)); do read -r line <&"$lines" && [[ $line == done* ]] && read=$((read + 1)); done
      sleep "0.00$((RANDOM % 3))"
      kill -9 "$worker" 2>/dev/null
      wait "$worker" 2>/dev/null
      read=$((read + $(grep -c done <&"$lines")))
      exec {lines}<&-
      told=$((told + read)) further=$((further + (read > 0)))
    done
    "$work" work S orders 1000000 ok: >said || exit
    "$mqb" peek S replies 4294967295 2>/dev/null | awk '{ print $10 }' | diff -q - <(answers "$messages") >/dev/null || { echo 'the answers differ'; exit 1; }
    [ "$("$mqb" peek S orders 2>/dev/null)" = queueempty ] || { echo 'something waits'; exit 1; }
    echo "answered once, in order: $messages"
    echo "$kills kills, $further of them behind an answer; $told of the lines came before the last, and $(grep -c done said) behind it" >&2 ;;
  due)
    for messages in "${MESSAGES:-100000}" $((${MESSAGES:-100000} / 2)); do
      for life in 0 -; do
        store S
        fill S "$life" 1 $((messages / 2))
        fill S - $((messages / 2 + 1)) "$messages"
        TIMEFORMAT="$messages messages, the first half with the life $life: %U and %S seconds of a processor, in %R"
        time "$work" work S orders $((messages / 2)) ok: >said
        tail -n 1 said
        rm S
      done
    done 2>&1 ;;
  *)
    sed -n '/^# bench/s/^# //p' "$0" >&2
    exit 2 ;;
esac
