#!/bin/sh
# Computes beside another program of the same words, scripts, stores and packets, which PEER names: user time of both, in one run, of which the least of ROUNDS (3) counts.
# Prints a line a load, and the greatest ratio. MQB names another program than ./mqb --where does; ONLY=WORD takes the loads whose names have that word.
# What is wanted: 3 at most for what is put and taken, 2 at `trial`, `show` and `list`, 2.5 at the three replays of commits; 163,840 messages at most 4.6 times
# 40,960, and 81,920 with priorities or due messages, purged, swept or expired, at most 2.4 times 40,960; an empty replay at most 20 milliseconds in all.
# Seen of the release whose sum begins with 17d2e60e, nothing else running: 40,960 messages put by 64 and taken by 64 1.3 to 2.1 times, taken one by one 2.3 to 3.3; 163,840 1.5 to 1.9 and 2.6 to 2.9, which is 3.6 to 4.0
# and 3.8 to 5.2 times 40,960; `trial 10000` 2.2 to 3.3, in half of the seconds of the release before; the replays 2.1 to 2.9, 1.9 to 2.1 and 1.9 to 2.1, `show` 1.3 to 1.6, `list` 1.5 to 3.0. 81,920 with priorities in turn 1.6 to 2.0, half due 1.8 to 2.1, purged, swept and expired
# 1.8 to 2.9, 2.0 to 2.2 and 1.8 to 2.0 times 40,960. By instructions `trial 1500` has 200 million, the release before it 300, the other program 102; 8,192 put by 64 and taken one by one 203, 333 and 107; 5,760 kept and pumped 99, 159 and 62.
# Seen of the release whose sum begins with b9784d31, beside some four busy programs on four processors: 40,960 messages put by 64 and taken by 64 2.7 times, taken one by one 5.9; 163,840 2.8 and 4.8, which is 4.3 and 4.2 times 40,960; `trial 10000` 4.9, the replays 3.9, 4.0 and 2.9, `show` 1.6, `list` 2.4, and an
# empty replay 1 millisecond. 81,920 with priorities in turn are 2.1 times 40,960, with a front of which half is due 2.0, purged, swept and expired 2.2, 2.4 and 1.9 times. Tenths of a second vary by a half on a busy machine; on a quiet one the other program gains more.
# The release before gaps (GapBuffer): 2.9, 2.2, 2.2 and 3.8, `trial` 3.9, the replays 2.9, 3.2 and 2.2, `show` 1.4, `list` 1.9; 81,920 purged, swept and expired 2.1, 2.1 and 1.7 times 40,960.
# By instructions, which do not vary, `trial 1500` has 313 million, that release 267, the other program 102. Of takes 8,192 with priorities in turn, and with a front that is due, 2.0 times 4,096 by instructions. Where a message that was put back made each pass of its list begin anew, these were 5.7 times and 3.0.
# It stands outside the gate.
set -e
top=$(cd "$(dirname "$0")/.." && pwd)
MQB=${MQB:-$("$top/mqb" --where)}
export MQB
: "${PEER:?names the other program}"
exec python3 - <<'END'
import os, resource, shutil, subprocess, tempfile

MQB, PEER = os.environ["MQB"], os.environ["PEER"]
ROUNDS, ONLY = int(os.environ.get("ROUNDS", "3")), os.environ.get("ONLY", "")
SEND = b"send,DIRECT=OS:%s\\PRIVATE$\\%s,-,%s,-,-,-,%s"
room = tempfile.mkdtemp(prefix="against-peer-", dir="/dev/shm" if os.path.isdir("/dev/shm") else None)  # a sync is no part of what is measured


def user(program, words, given):
    """The user seconds of one run, and what it wrote."""
    with tempfile.TemporaryFile(dir=room) as script, tempfile.TemporaryFile(dir=room) as written:
        script.write(given)
        script.seek(0)
        before = resource.getrusage(resource.RUSAGE_CHILDREN).ru_utime
        subprocess.run([program, *words], stdin=script, stdout=written, stderr=subprocess.DEVNULL, check=True)
        seconds = resource.getrusage(resource.RUSAGE_CHILDREN).ru_utime - before
        written.seek(0)
        return seconds, written.read()


def least(program, words, given):
    runs = [user(program, words, given) for _ in range(ROUNDS)]
    return min(seconds for seconds, _ in runs), runs[0][1]


def local(queue, life=b"-", body=b"one"):
    return SEND % (b".", queue, life, body)


def lines(*found):
    return b"".join(line + b"\n" for line in found)


def put(count, life=b"-"):
    """So many messages put into a transactional queue by commits of 64."""
    return [b"commit alpha 1000 " + b" ".join([local(b"q", life)] * 64)] * (count // 64)


def put_and_taken(count, at_once):
    taken = [b"commit alpha 1001 " + b" ".join([b"take,q"] * 64)] * (count // 64) if at_once else [b"take alpha 1001 q"] * count
    return lines(b"queue alpha q tx 4294967295 none", *put(count), *taken)


def in_turn(count):
    """So many messages of priorities 0 to 7 in turn, each then taken."""
    sent = [b"send alpha 1000 recoverable %d " % (k % 8) + local(b"p") for k in range(count)]
    return lines(b"queue alpha p plain 4294967295 none", *sent, *[b"take alpha 1001 p"] * count)


def half_due(count):
    """A queue whose front half is due when what stands behind it is taken."""
    return lines(b"queue alpha q tx 4294967295 none", *put(count // 2, b"5"), *put(count), *[b"take alpha 2000 q"] * count)


def emptied(count, line, life=b"-"):
    return lines(b"queue alpha q tx 4294967295 none", *put(count, life), line)


def expired(count):
    return lines(*[b"commit alpha 1000 " + b" ".join([SEND % (b"beta", b"orders", b"5", b"one")] * 64)] * (count // 64), b"tick alpha 2000")


def acknowledged(commits):
    found, packet = [b"queue beta orders tx 4294967295 none", b"connect alpha 1000 64 64"], 4
    for _ in range(commits):
        found += [b"commit alpha 1000 " + SEND % (b"beta", b"orders", b"-", b"one"), b"pump alpha 1000", b"deliver %d 1000" % (packet + 1), b"pump beta 1000", b"deliver %d 1000" % (packet + 2)]
        packet += 2
    return lines(*found)


def kept(count):
    return lines(b"queue beta orders tx 4294967295 none", b"connect alpha 1000 64 65535",
                 *[b"commit alpha 1000 " + b" ".join([SEND % (b"beta", b"orders", b"-", b"one")] * 64)] * (count // 64), *[b"pump alpha 1000"] * (count // 64))


def made_store(records):
    """A store of so many records, which the peer makes."""
    store = f"{room}/store"
    for words in (["init", store, "alpha", "0a0b0c0d-0e0f-1011-1213-141516171819", "127.0.0.1"], ["peer", store, "beta", "1a1b1c1d-1e1f-2021-2223-242526272829", "127.0.0.2"],
                  ["bench-commit", store, str(records), "1"]):
        subprocess.run([PEER, *words], stdout=subprocess.DEVNULL, check=True)
    return store


def packets(count):
    return subprocess.run([PEER, "bench-packets", str(count)], capture_output=True, check=True).stdout


beside = [  # name, words, input, the greatest ratio that is wanted
    ("put 40,960 by 64, taken by 64", lambda: (["replay"], put_and_taken(40960, True)), 3),
    ("put 40,960 by 64, taken one by one", lambda: (["replay"], put_and_taken(40960, False)), 3),
    ("put 163,840 by 64, taken by 64", lambda: (["replay"], put_and_taken(163840, True)), 3),
    ("put 163,840 by 64, taken one by one", lambda: (["replay"], put_and_taken(163840, False)), 3),
    ("trial 10000", lambda: (["trial", "10000"], b""), 2),
    ("replay of made 10000", lambda: (["replay"], subprocess.run([PEER, "make", "10000"], capture_output=True, check=True).stdout), 2.5),
    ("20,000 commits, acknowledged", lambda: (["replay"], acknowledged(20000)), 2.5),
    ("57,600 kept and pumped", lambda: (["replay"], kept(57600)), 2.5),
    ("show of 100,000 packets", lambda: (["show"], packets(100000)), 2),
    ("list of 20,000 records", lambda: (["list", made_store(20000)], b""), 2),
]
grown = [  # name, a script of a count, the less count, the greater, the greatest ratio that is wanted
    ("put and taken by 64, 163,840 beside 40,960", lambda n: put_and_taken(n, True), 40960, 163840, 4.6),
    ("put and taken one by one, 163,840 beside 40,960", lambda n: put_and_taken(n, False), 40960, 163840, 4.6),
    ("priorities in turn, 81,920 beside 40,960", in_turn, 40960, 81920, 2.4),
    ("a front of which half is due, 81,920 beside 40,960", half_due, 40960, 81920, 2.4),
    ("purged, 81,920 beside 40,960", lambda n: emptied(n, b"purge alpha 1001 q"), 40960, 81920, 2.4),
    ("swept, 81,920 beside 40,960", lambda n: emptied(n, b"tick alpha 2000", b"5"), 40960, 81920, 2.4),
    ("expired, 81,920 beside 40,960", expired, 40960, 81920, 2.4),
]
worst = []
try:
    seconds, _ = least(MQB, ["replay"], b"")
    print(f"an empty replay: {seconds * 1000:.0f} ms of user time", flush=True)
    for name, load, wanted in beside:
        if ONLY not in name:
            continue
        words, given = load()
        (ours, said), (theirs, answered) = least(MQB, words, given), least(PEER, words, given)
        worst.append((ours / max(theirs, 0.001) / wanted, name))
        differs = "" if said == answered else ", AND THEIR ANSWERS DIFFER"
        print(f"{name}: {ours:.3f} s beside {theirs:.3f}, {ours / max(theirs, 0.001):.2f} times ({wanted} wanted){differs}", flush=True)
    for name, script, less, more, wanted in grown:
        if ONLY not in name:
            continue
        low, high = least(MQB, ["replay"], script(less))[0], least(MQB, ["replay"], script(more))[0]
        worst.append((high / max(low, 0.001) / wanted, name))
        print(f"{name}: {high:.3f} s beside {low:.3f}, {high / max(low, 0.001):.2f} times ({wanted} wanted)", flush=True)
    print("the greatest share of what is wanted: %.2f, %s" % max(worst))
finally:
    shutil.rmtree(room)
END
