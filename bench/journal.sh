#!/bin/sh
# Appends and scans 100,000 records of 1,000 bytes on a disk in memory and on a file, beside a raw loop that writes and syncs the same bytes, and
# prints how long each took. RECORDS=1000 takes fewer. FOLDER is where the files stand, which decides what a sync costs.
# The program is built in a copy of the crates, so that it is no part of what is proved with each change.
set -e
top=$(cd "$(dirname "$0")/.." && pwd)
work=$(mktemp -d)
folder=${FOLDER:-$work}
trap 'rm -rf "$work" "$folder/raw.store" "$folder/journal.store"' EXIT
git -C "$top" archive HEAD crates crates.txt HANDLES | tar -x -C "$work"
for name in mqb_base mqb_outside mqb_fields mqb_disk mqb_layout mqb_journal; do # what rt has kept of them is not proved again
  [ ! -d "$top/crates/$name/out" ] || cp -a "$top/crates/$name/out" "$work/crates/$name/"
done
crate=$work/crates/mqb_bench
mkdir -p "$crate/src" "$crate/proofs/fill/append_all" "$crate/proofs/fill/scan_all"
sed "s/100_000/${RECORDS:-100_000}/; s|FOLDER|$folder|" "$top/bench/journal/main.txt" > "$crate/src/main.rt"
cp "$top/bench/journal/fill.txt" "$crate/src/fill.rt"
cp "$top/bench/journal/append_all.txt" "$crate/proofs/fill/append_all/Invariants.antt"
cp "$top/bench/journal/appended.txt" "$crate/proofs/fill/append_all/Answers.antt"
cp "$top/bench/journal/scan_all.txt" "$crate/proofs/fill/scan_all/Invariants.antt"
touch "$crate/proofs/Lib.antt"
echo 'mqb_bench: mqb_base mqb_outside mqb_disk mqb_journal thiserror' >> "$work/crates.txt"
cd "$crate"
rt run
