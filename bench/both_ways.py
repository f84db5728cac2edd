#!/usr/bin/env python3
"""both_ways.py [DRAWN]: two managers that both have much to say, over the loopback: 64 messages of 80,000 bytes each way, two of 3,000,000, 64 of 1,000,000, and DRAWN
loads (40) of both sides. Each load goes by a push and a fetch, and once more by pushes from either side in turn, four at most; beside this program, and beside PEER
(another program with the same words, which need not take in what comes while it writes) at either end, where one is named. At the end each message is in its queue once,
each row is acknowledged, and no line is `netfault`; else it is said what is so, and the status is 1. A connection that takes over 30 seconds (LIMIT) is cut off and BLOCKS.

Seen: all of 215 rows went well, beside this program and beside another one at either end, each in under 5 seconds on a busy machine; two ends of that other program, which writes all
before it reads, block in each of the first three loads.

It stands outside the gate. Its port must be free: 1801, or MQB_PORT. MQB names another program than `./mqb --where` does, PEER the other one.
"""
import os, pathlib, random, re, subprocess, sys, tempfile, time
from managers import GUIDS, MQB, OTHER, listening

PEER = os.environ.get("PEER")
LIMIT = float(os.environ.get("LIMIT", "30"))
DRAWN = int(sys.argv[1]) if len(sys.argv) > 1 else 40


class Ends:
    """Two managers, each by its program, and how many messages each has sent to the queue of the other."""

    def __init__(self, folder, programs):
        self.programs, self.sent, self.lines = programs, {host: 0 for host in GUIDS}, []
        self.stores = {host: f"{folder}/{host}.store" for host in GUIDS}
        for host in GUIDS:
            pathlib.Path(self.stores[host]).unlink(missing_ok=True)
            self.asked(host, "init", host, GUIDS[host], "127.0.0.1")
        for host in GUIDS:
            self.asked(host, "peer", OTHER[host], GUIDS[OTHER[host]], "127.0.0.1")
            self.asked(host, "create", "orders", "tx", "1000000", "none")

    def asked(self, host, word, *words):
        """The lines of a command on a host's store, which must go well."""
        done = subprocess.run([self.programs[host], word, self.stores[host], *words], capture_output=True, text=True)
        assert done.returncode == 0, (host, word, words, done.returncode, done.stdout, done.stderr)
        return done.stdout.splitlines()

    def commit(self, host, sizes):
        """Commits a message of each size for the other host, in transactions of sixteen at most that a record holds."""
        group = []
        for size in sizes + [None]:
            if group and (size is None or len(group) == 16 or sum(group) + size > 3_000_000):
                self.asked(host, "commit", *(rf"send,DIRECT=OS:{OTHER[host]}\PRIVATE$\orders,-,-,-,-,-,*{size}" for size in group))
                group = []
            group.append(size)
        self.sent[host] += len(sizes)

    def connect(self, caller, word, *seconds):
        """One connection from a host to the other, and whether it ended by itself."""
        called = OTHER[caller]
        limit = ["timeout", "-k", "1", str(LIMIT)]
        serving = subprocess.Popen([*limit, self.programs[called], "serve", self.stores[called], "1"], stdout=subprocess.PIPE, text=True)
        listening(serving)
        reaching = subprocess.Popen([*limit, self.programs[caller], word, self.stores[caller], called, *seconds], stdout=subprocess.PIPE, text=True)
        self.lines += [line for process in (reaching, serving) for line in process.communicate()[0].splitlines()]
        return all(process.returncode not in (124, 137) for process in (reaching, serving))

    def wanting(self):
        """What is not yet as it is to be: a queue without each message once, a row that is not acknowledged."""
        said = []
        for host in GUIDS:
            queue, acknowledged = [], 0
            for line in self.asked(host, "list"):
                if line.startswith(f"{host} queue orders"):
                    queue = line.split()[3:]
                if found := re.match(rf"{host} out 1 \S+ (\d+) (\d+) (\d+)", line):
                    acknowledged = int(found[3])
            wanted = self.sent[OTHER[host]]
            if len(set(queue)) != len(queue) or len(queue) != wanted:
                said.append(f"{host} has {len(set(queue))} of {wanted} and {len(queue) - len(set(queue))} twice")
            if acknowledged != self.sent[host]:
                said.append(f"{acknowledged} of {self.sent[host]} of {host} are acknowledged")
        return said


def by_fetch(ends):
    """A push and a fetch by alpha."""
    return ends.connect("alpha", "push") and ends.connect("alpha", "fetch", "1")


def by_turns(ends):
    """Pushes from either side in turn, four at most."""
    for caller in ("alpha", "beta", "alpha", "beta"):
        if not ends.connect(caller, "push"):
            return False
        if not ends.wanting():
            break
    return True


def tried(name, way, programs, folder, load):
    """Says how a load went, and whether it went well."""
    ends = Ends(folder, programs)
    for host in GUIDS:
        ends.commit(host, load[host])
    began = time.time()
    whole = way(ends)
    took = time.time() - began
    said = (["BLOCKS"] if not whole else []) + ends.wanting() + sorted({line for line in ends.lines if "fault" in line})
    print(f"{name}: {'; '.join(said) or 'all came, and all is acknowledged'}, {took:.1f} s", flush=True)
    return not said


def drawn():
    """A load of both sides: up to 60 messages, of up to 2,000,000 bytes, most of them small."""
    sizes = {host: [int(10 ** random.uniform(0, 6.3)) for _ in range(random.randrange(60))] for host in GUIDS}
    return {host: [size for at, size in enumerate(found) if sum(found[:at]) < 20_000_000] for host, found in sizes.items()}


def main():
    random.seed(20)
    loads = [(f"{count} of {size} each way", {host: [size] * count for host in GUIDS}) for count, size in ((64, 80_000), (2, 3_000_000), (64, 1_000_000))]
    loads += [(f"drawn load {at + 1}", drawn()) for at in range(DRAWN)]
    pairs = [("beside itself", {"alpha": MQB, "beta": MQB})]
    if PEER:
        pairs += [("called by it, a peer serves", {"alpha": MQB, "beta": PEER}), ("a peer pushes", {"alpha": PEER, "beta": MQB})]
    well = True
    with tempfile.TemporaryDirectory() as folder:
        for name, load in loads:
            for pair, programs in pairs:
                for word, way in (("push and fetch", by_fetch), ("pushes in turn", by_turns)):
                    if way is by_turns or programs["alpha"] == MQB:
                        well = tried(f"{name}, {pair}, {word}", way, programs, folder, load) and well
    sys.exit(0 if well else 1)


main()
