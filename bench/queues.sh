#!/bin/sh
# Times a put, a take and a release in lists of 100, 10,000 and 1,000,000 messages, and prints how many hundredths each is of that in the shortest.
# At each depth there are 1,000,000 messages in all, so that what is called is as far from the caches in each, and as many tries, of which the
# quickest counts.
#
# A put goes into room that was used just before, since otherwise it measures the system's memory and the caches, and not the queue. The room of a
# long list goes back to the system with the list and comes again in pages that were never touched, of which 20 puts meet one or two, while the room
# of short lists is used again. Seen on a loaded machine, in nanoseconds a put at 1,000,000 and at 100:
#   into fresh room                                                204 to 259 and 52 to 68     2,889,464 page faults in all
#   the same, with an allocator that keeps what is freed            53 to  56 and 50 to 54       140,285
#   into room that was used before the list was gone through        60 to  76 and 36 to 45
#   into room that was used just before, as here                    30        and 24 to 29
# The allocator that keeps: GLIBC_TUNABLES=glibc.malloc.mmap_max=0:glibc.malloc.trim_threshold=34359738368.
#
# The program is built in a copy of the crates, so that it is no part of what is proved with each change.
set -e
top=$(cd "$(dirname "$0")/.." && pwd)
work=$(mktemp -d)
trap 'rm -rf "$work"' EXIT
git -C "$top" archive HEAD crates crates.txt HANDLES | tar -x -C "$work"
for name in mqb_base mqb_orders mqb_queue; do # what rt has kept of them is not proved again
  [ ! -d "$top/crates/$name/out" ] || cp -a "$top/crates/$name/out" "$work/crates/$name/"
done
crate=$work/crates/mqb_depths
mkdir -p "$crate/src" "$crate/proofs/keep"
cp "$top/bench/queues/main.txt" "$crate/src/main.rt"
cp "$top/bench/queues/keep.txt" "$crate/proofs/keep/Invariants.antt"
cp "$top/bench/queues/rising.txt" "$crate/proofs/Rising.antt"
echo 'pub mod Rising' > "$crate/proofs/Lib.antt"
echo 'mqb_depths: mqb_base mqb_orders mqb_queue' >> "$work/crates.txt"
cd "$crate"
rt run
