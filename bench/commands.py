#!/usr/bin/env python3
"""commands.py [MOST]: what the words of the program cost, as ratios in one run: `mqb commit` and `mqb list` at stores of 10, 1,000 and MOST (100,000) records;
messages a second from `push` to `serve` over the loopback, beside a raw loop of the same writes and syncs; bytes a second of `mqb show`.

Seen on a machine with five times as many busy programs as processors: a commit at 1,000 and 100,000 records took 1.07 and 30 times what it took at 10 (36 and 1,078
milliseconds), a list 4 and 113 times (9.7 and 1,093), since each reads the whole store; push to serve 137 and 213 messages a second, 0.88 and 0.19 of the raw loop, as its
syncs went; show 10 million bytes a second. On one that was less busy, with MOST = 10000: 0.7 and 4.4, 1.6 and 8.2; 417 and 253 messages a second, 0.13 and 0.98; 40 million.

A store gets its records by messages that are pushed to it: each that arrives is one. FOLDER is where the files stand, which decides what a sync costs. It stands
outside the gate. Its port must be free: 1801, or MQB_PORT. MQB names another program than `./mqb --where` does.
"""
import os, subprocess, sys, time
from managers import MQB, folder, listening

MOST = int(sys.argv[1]) if len(sys.argv) > 1 else 100_000
ALPHA = ("alpha", "0a0b0c0d-0e0f-1011-1213-141516171819", "127.0.0.2")
BETA = ("beta", "1a1b1c1d-1e1f-2021-2223-242526272829", "127.0.0.1")
ORDERS = r"DIRECT=OS:beta\PRIVATE$\orders"
NOTES = r"DIRECT=OS:.\PRIVATE$\notes"
BODY = "x" * 100


def asked(*words, **more):
    done = subprocess.run([MQB, *words], capture_output=True, **more)
    assert done.returncode == 0, (words[:3], done.returncode, done.stdout[:200], done.stderr)
    return done.stdout


def timed(action):
    start = time.perf_counter()
    action()
    return time.perf_counter() - start


def fill(alpha, beta, count):
    """Brings so many messages to beta, each a record of its store, and says how long that took from `push` to `serve`. A connection carries 65,535 of them at most."""
    took = 0.0
    while count:
        part = min(count, 60_000)
        for at in range(0, part, 64):
            asked("commit", alpha, *[f"send,{ORDERS},-,-,-,-,-,{BODY}"] * min(64, part - at))
        serving = subprocess.Popen([MQB, "serve", beta, "1"], stdout=subprocess.PIPE)
        listening(serving)
        took += timed(lambda: asked("push", alpha, "beta"))
        assert serving.communicate()[0] == b"connection 1: ended\n"
        count -= part
    return took


def raw(folder, count):
    """So many records of 300 bytes, each written and synced, and then its gate, as the journal does."""
    with open(f"{folder}/raw", "wb", buffering=0) as file:
        def records():
            for _ in range(count):
                for part in (b"x" * 300, b"gate"):
                    file.write(part)
                    os.fsync(file.fileno())
        return timed(records)


def main():
    with folder() as name:
        alpha, beta = f"{name}/alpha.store", f"{name}/beta.store"
        for store, own, other in ((alpha, ALPHA, BETA), (beta, BETA, ALPHA)):
            asked("init", store, *own)
            asked("peer", store, *other)
        asked("create", beta, "orders", "tx", "4000000", "none")
        asked("create", beta, "notes", "tx", "4000000", "none")
        held, first = 4, {}
        for size in (10, 1_000, MOST):
            count = size - held
            took = fill(alpha, beta, count)
            held = size + 3
            if count >= 500:
                same = raw(name, min(count, 5_000)) / min(count, 5_000)
                print(f"push to serve: {count / took:.0f} messages a second, {same * count / took:.2f} of a raw loop of the same syncs")
            for word, action in (("commit", lambda: asked("commit", beta, f"send,{NOTES},-,-,-,-,-,{BODY}")), ("list", lambda: asked("list", beta))):
                best = min(timed(action) for _ in range(3))
                first.setdefault(word, best)
                print(f"{word} at {size} records: {best * 1000:.1f} ms, {best / first[word]:.2f} of that at 10")
        ack = bytes.fromhex("100018004c494f5224000000ffffffff0100000001000100000000000000000040000000")
        text = ack * 1_000_000
        shown = timed(lambda: asked("show", input=text))
        print(f"show: {len(text) / shown / 1e6:.1f} million bytes a second, in packets of {len(ack)} bytes")


main()
