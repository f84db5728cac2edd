#!/bin/sh
# Makes the records of twelve drawn runs in the states of two managers, and compares what they come to with what the texts in bench/drawn/ say: some
# 600 records that are made, and 200 that are tried. Numbers of runs, as in "bench/drawn.sh 0 7", take those alone. bench/drawn/README.md says what
# the texts are.
#
# The program is built in a copy of the crates, so that it is no part of what is proved with each change, and runs without a proof.
set -e
top=$(cd "$(dirname "$0")/.." && pwd)
work=$(mktemp -d)
trap 'rm -rf "$work"' EXIT
git -C "$top" archive HEAD crates crates.txt HANDLES | tar -x -C "$work"
crate=$work/crates/mqb_drawn
mkdir -p "$crate/src"
for name in main hexes pictures showing twins; do
  cp "$top/bench/drawn/$name.txt" "$crate/src/$name.rt"
done
echo 'mqb_drawn: core indexmap mqb_base mqb_deque mqb_orders mqb_queue mqb_plain mqb_entries mqb_transcript mqb_state thiserror uuid' >> "$work/crates.txt"
for run in ${*:-0 1 2 3 4 5 6 7 8 9 10 11}; do
  cat "$top/bench/drawn/run$run.txt"
done > "$work/told.txt"
cd "$crate"
sed '/^>/d' "$work/told.txt" > "$work/asked.txt"
rt try --steps 1000 --seconds 600 < "$work/asked.txt" > "$work/came.txt" 2> "$work/said.txt" || true
if diff "$work/told.txt" "$work/came.txt" > "$work/differences.txt"; then
  echo "each line is as it was told"
else
  head -20 "$work/differences.txt"
  tail -20 "$work/said.txt"
  exit 1
fi
