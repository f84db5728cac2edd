#!/bin/sh
# Reads 100,000 packets of 1,000 bytes, and prints how many were read a second.
# The program is built in a copy of the crates, so that it is no part of what is proved with each change.
set -e
top=$(cd "$(dirname "$0")/.." && pwd)
work=$(mktemp -d)
trap 'rm -rf "$work"' EXIT
git -C "$top" archive HEAD crates crates.txt HANDLES | tar -x -C "$work"
mkdir -p "$work/crates/mqb_decode/src"
cp "$top/bench/decode.txt" "$work/crates/mqb_decode/src/main.rt"
echo 'mqb_decode: mqb_packet' >> "$work/crates.txt"
cd "$work/crates/mqb_decode"
rt run
