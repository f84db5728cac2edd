#!/bin/sh
# Times what a manager does, and prints it as ratios:
# - commits of a message of 1,000 bytes, and of 64 of them, on a disk in memory and in a file, beside a raw loop that writes, syncs, writes one byte
#   and syncs, as many bytes in all: how many hundredths the commits a second are of the raw loop's.
# - packets that it pumps and hears with 10, 1,000 and 50,000 messages kept for its peer, and as many in the queue where they come: how many
#   hundredths a packet costs of one with 10. Ten go in each pump, and all records go to disks in memory. MESSAGES=1000 keeps fewer. The caches that are a
#   processor's own are emptied before each call, so that what is called is as far away with 10 messages as with 50,000.
# FOLDER is where the files stand, which decides what a sync costs.
#
# Seen in runs of the proved program that kept their processor (chrt -f 10 taskset -c 3), on a machine with three times as many busy programs as processors
# and a host that gave it now half of its processors and now all (so in ranges):
#   memory, 1 op       5 to 10 hundredths of the raw loop (a commit took 4.0 to 8.9 microseconds, the raw loop 0.34 to 0.49)
#   memory, 64 ops     5 to 9 (326 to 568 microseconds, and 29 to 32)
#   file, 1 op         89 to 98 (133 to 192 microseconds, and 124 to 174)
#   file, 64 ops       36 to 49 (500 to 770 microseconds, and 213 to 329)
# So the raw loop is reached in a file by transactions of one message. In one of 64 a manager computes 5 to 9 microseconds for a message (it tries the op,
# spells the record, reads it again, makes it, and frames it), which is more than the four calls of a file whose syncs are that quick. Of the samples of one
# profile some 27 % were in memmove, which copies bodies and records as well as moving values; its callers were not told apart. Where each sync waits besides
# (a library that is loaded before the program's makes it; one or two runs each), it was 74 hundredths with half a millisecond, 86 and 87 with one, 88 and 90
# with two, 95 and 96 with four, 97 with eight. Before a transaction's packets were read once, and its last sequence was looked for from the back, 64 ops in
# memory were 5 to 6 on another machine; the two programs were not run side by side.
#
# In eight runs, in hundredths of a packet with 10 messages kept, with 1,000 and with 50,000 messages:
#   pumped                   81 to 108, 91 to 126 (3.8 to 4.7 microseconds)
#   heard                    73 to 107, 78 to 112 (8.7 to 12)
#   acknowledgement heard    72 to 105, 74 to 109 (35 to 48; it releases ten messages)
# (one of the eight was free to change its processor; in a ninth it was 104, 104 and 93, and 142, 152 and 128, of which the cause was not looked for).
# So packets do not grow with what is kept. On another machine, where the caches were left as they are, a packet with 10 messages was pumped in 0.4
# microseconds, heard in 3.5, and acknowledged in 4.8, and with 50,000, which stand in no near cache, it cost 676 to 885, 172 to 242 and 271 to 322 hundredths
# of that.
#
# On a busy machine a program that may be interrupted says little: six such runs said 54 to 108 for one op in a file, 12 to 91 for 64.
#
# The program is built in a copy of the crates, so that it is no part of what is proved with each change; its proof takes some five minutes of a
# processor. A function in whose scope a manager ends is dear to prove, some three minutes each, so each of them is let go by a call of drop.
# HOW=try runs it without a proof, with checks that make it some two hundred times slower: HOW='try --steps 1000 --seconds 900'.
set -e
top=$(cd "$(dirname "$0")/.." && pwd)
work=$(mktemp -d)
folder=${FOLDER:-$work}
trap 'rm -rf "$work" "$folder/raw.store" "$folder/manager.store"' EXIT
git -C "$top" archive HEAD crates crates.txt HANDLES | tar -x -C "$work"
for name in $(ls "$top/crates"); do # what rt has kept of them is not proved again
  [ ! -d "$top/crates/$name/out" ] || cp -a "$top/crates/$name/out" "$work/crates/$name/"
done
crate=$work/crates/mqb_kept
mkdir -p "$crate"
cp -R "$top/bench/manager/." "$crate"
for file in $(cd "$crate" && find src specs proofs -name '*.txt'); do # no check reads them where they stand, so they have another ending there
  case $file in src/*) ending=rt ;; *) ending=antt ;; esac
  mv "$crate/$file" "$crate/${file%.txt}.$ending"
done
sed -i "s/^const MESSAGES: u32 = .*/const MESSAGES: u32 = ${MESSAGES:-50_000};/; s|FOLDER|$folder|" "$crate/src/main.rt"
echo 'mqb_kept: mqb_base mqb_outside mqb_disk mqb_heads mqb_hearing mqb_model mqb_packet mqb_store_laws mqb_store mqb_manager thiserror' >> "$work/crates.txt"
cd "$crate"
rt ${HOW:-run}
