#!/bin/sh
# Times replays over two managers on stores in memory, each five times, of which the quickest counts, and prints ratios:
# - scripts of 200, 2,000 and 20,000 lines: commits of 1,000 bytes, each pumped, delivered and acknowledged.
# - trials: what 10,000 orders take beyond one order, of what 1,000 take beyond one. At most 11 are wanted.
# - scripts of 25,000 and 50,000 commits before the first pump. At most 2.2 times are wanted.
# ROUNDS=15 takes more rounds, MQB names another program than ./mqb --where does.
set -e
top=$(cd "$(dirname "$0")/.." && pwd)
MQB=${MQB:-$("$top/mqb" --where)}
export MQB
ROUNDS=${ROUNDS:-5} exec python3 - <<'END'
import os, subprocess, tempfile, time

MQB, ROUNDS = os.environ["MQB"], int(os.environ["ROUNDS"])
BEGINNING = b"queue beta orders tx 4294967295 none\nconnect alpha 1000 64 64\n"


def commit(body):
    return b"commit alpha 1000 send,DIRECT=OS:beta\\PRIVATE$\\orders,-,-,-,-,-,%s\n" % body


def acknowledged(lines):
    """A script of so many lines: commits, each of them pumped, delivered and acknowledged."""
    script, packet = [BEGINNING], 4
    for _ in range(2, lines - 4, 5):
        script.append(commit(b"*1000") + b"pump alpha 1000\ndeliver %d 1000\npump beta 1000\ndeliver %d 1000\n" % (packet + 1, packet + 2))
        packet += 2
    return b"".join(script)


def committed(count):
    """A script of so many commits before one pump."""
    return BEGINNING + commit(b"one") * count + b"pump alpha 1000\n"


def once(words, given):
    """The seconds of one run, and what it writes."""
    with tempfile.TemporaryFile() as script, tempfile.TemporaryFile() as written:
        script.write(given)
        script.seek(0)
        start = time.perf_counter()
        subprocess.run([MQB, *words], stdin=script, stdout=written, check=True)
        seconds = time.perf_counter() - start
        written.seek(0)
        return seconds, written.read()


def quickest(runs):
    """Of each of these runs the least seconds over all rounds, in which they take turns, and what it writes."""
    rounds = [[once(*run) for run in runs] for _ in range(ROUNDS)]
    return [(min(round[k][0] for round in rounds), rounds[0][k][1]) for k in range(len(runs))]


lengths = (200, 2000, 20000)
for lines, (seconds, written) in zip(lengths, quickest([(("replay",), acknowledged(lines)) for lines in lengths])):
    print(f"{lines} lines: {seconds * 1000:.1f} ms, {len(written)} bytes of transcript")
orders = (1, 1000, 10000)
trials = quickest([(("trial", str(n)), b"") for n in orders])
for n, (seconds, line) in zip(orders, trials):
    print(f"trial {n}: {seconds * 1000:.1f} ms, {line.decode().strip()}")
one, thousand, ten = (seconds for seconds, _ in trials)
print(f"(t(10000) - t(1)) / (t(1000) - t(1)): {(ten - one) / (thousand - one):.2f}")
half, whole = (seconds for seconds, _ in quickest([(("replay",), committed(count)) for count in (25000, 50000)]))
print(f"50,000 commits before the first pump: {whole * 1000:.0f} ms, {whole / half:.2f} times what 25,000 take")
END
