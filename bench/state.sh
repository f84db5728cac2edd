#!/bin/sh
# Times commits, arrivals and takes of messages of 1,000 bytes over states of 100, 10,000 and 100,000 messages, and prints how many a second and how
# many hundredths each cost is of that over the smallest. A state has so many messages in a queue, and as many that are kept for a peer.
# At each depth there are 100,000 messages of each in all, so that what is called is as far from the caches in each. MESSAGES=10000 takes fewer.
# What is timed is a record that is read, prepared and installed. Nothing is written.
#
# Seen once on a machine that was busy with three times as many programs as it has processors, in nanoseconds a message at 100, 10,000 and 100,000
# messages, and in hundredths of what it costs at 100:
#   commit, alone         2,818    2,502       2,653    94 at 100,000
#   commit, 64 together   3,705    3,354       2,165    58
#   arrival               2,262    2,072       1,962    86
#   take                  4,161  558,338  33,181,611
# So commits and arrivals do not grow with the depth. The takes are from before a queue lost its front without a move: then all that stands behind it moved three
# times, since a take is prepared, taken back and installed, and that was its whole cost. Two runs from before the copies of a body
# shared its bytes took 3.2 to 4.7 microseconds for a commit at 100 messages, and 2.6 to 2.9 for an arrival.
#
# The program is built in a copy of the crates, so that it is no part of what is proved with each change; its proof takes some two minutes. HOW=try runs
# it without a proof, some two hundred times slower, and HOW="try --seconds 1500" as long as that takes.
set -e
top=$(cd "$(dirname "$0")/.." && pwd)
work=$(mktemp -d)
trap 'rm -rf "$work"' EXIT
git -C "$top" archive HEAD crates crates.txt HANDLES | tar -x -C "$work"
for name in $(ls "$top/crates"); do # what rt has kept of them is not proved again
  [ ! -d "$top/crates/$name/out" ] || cp -a "$top/crates/$name/out" "$work/crates/$name/"
done
crate=$work/crates/mqb_depths
mkdir -p "$crate/src"
sed "s/^const MESSAGES: u32 = .*/const MESSAGES: u32 = ${MESSAGES:-100_000};/" "$top/bench/state/main.txt" > "$crate/src/main.rt"
for name in calls records samples spelling; do
  cp "$top/bench/state/$name.txt" "$crate/src/$name.rt"
done
echo 'mqb_depths: core indexmap mqb_base mqb_orders mqb_queue mqb_plain mqb_entries mqb_transcript mqb_state thiserror uuid' >> "$work/crates.txt"
cd "$crate"
rt ${HOW:-run}
