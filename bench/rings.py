#!/usr/bin/env python3
"""rings.py [RINGS [SEED [CALLS]]]: drawn rings of three or four managers on stores, each with the schedule of recovery behind it: whatever happened, no manager ends with anything for another one.

RINGS drawn rings (500) of CALLS calls (60), of the seeds from SEED on (1): each manager knows all others, and has small queues and small sequences. Drawn are commits, sends and takes for managers of
the ring, what expires, purges, ticks, checkpoints, and pushes over the loopback of which half are killed in the middle, at either end. Behind each ring all managers are started anew (each
command does so), and then all pairs meet, in turn, and once more: a meeting is a push from either end. Each stream is then acknowledged up to what expired, and a third round of meetings leaves each store as it is,
byte for byte.

Told are how many rings had work, and how much, in which of the two rounds something went, and the seed of each ring that was not drained; where there is one, the status is 1.

Seen, by the released program whose sum begins with 13181677, seeds 1 to 501, in three runs side by side: each was drained. In 469 rings messages of streams waited behind the calls, 2,841 in all;
something went in the first round of 500, and in the second one of 152.

It stands outside the gate. Its port must be free: 1801, or MQB_PORT. MQB names another program than `./mqb --where` does, FOLDER another place for the stores.
"""
import collections, itertools, pathlib, random, re, sys, time
from managers import asked, folder, listening, mqb, send, started

RINGS, SEED, CALLS = (int(word) for word in (sys.argv[1:] + ["500", "1", "60"][len(sys.argv) - 1:])[:3])
FLAGS = ("-", "-", "d", "dj", "dpn", "pnm", "dprnm", "rm", "j")
counts = collections.Counter()


class Ring:
    """The stores of managers m1 to mN, and the numbers of each of their streams that expired."""

    def __init__(self, folder, count):
        self.hosts = [f"m{at}" for at in range(1, count + 1)]
        self.stores = {host: pathlib.Path(folder) / f"{host}.store" for host in self.hosts}
        self.expired = collections.defaultdict(set)
        for at, host in enumerate(self.hosts, 1):
            self.stores[host].unlink(missing_ok=True)
            asked("init", self.stores[host], host, self.guid(at), "127.0.0.1")
        for host in self.hosts:
            for at, other in enumerate(self.hosts, 1):
                if other != host:
                    asked("peer", self.stores[host], other, self.guid(at), "127.0.0.1")
            for name, kind, quota, journal in (("orders", "tx", "12", "journal"), ("few", "tx", "2", "none"), ("notes", "plain", "6", "none")):
                asked("create", self.stores[host], name, kind, quota, journal)

    @staticmethod
    def guid(at):
        return "-".join(f"{at:02x}" * size for size in (4, 2, 2, 2, 6))

    def call(self, word, host, *words):
        """A command of a manager, which may be refused."""
        done = mqb(word, self.stores[host], *words)
        assert done.returncode in (0, 11), (word, words, done.returncode, done.stdout, done.stderr)
        for ordinal, number in re.findall(r"\[expired (\d+) (\d+) ", done.stdout):
            self.expired[host, ordinal].add(int(number))

    def push(self, host, other, killed=None):
        """A connection, over which the first brings what waits; one end may be killed after so many seconds."""
        serving = started("serve", self.stores[other], "1")
        listening(serving)
        pushing = started("push", self.stores[host], other)
        if killed:
            end, seconds = killed
            time.sleep(seconds)
            (serving, pushing)[end].kill()
        said = pushing.communicate()[0]
        if killed:
            serving.kill()
        serving.communicate()
        assert killed or said == "connection 1: ended\n", said

    def rows(self, host):
        """What was committed to each stream of a manager, and what was acknowledged."""
        rows = [line.split() for line in asked("list", self.stores[host])]
        return {row[2]: (int(row[4]), int(row[6])) for row in rows if row[1] == "out"}

    def waits(self):
        """How many messages of streams are neither acknowledged nor expired."""
        return sum(committed - acked - sum(number > acked for number in self.expired[host, ordinal]) for host in self.hosts for ordinal, (committed, acked) in self.rows(host).items())

    def kept(self):
        return [store.read_bytes() for store in self.stores.values()]

    def meet(self):
        """All pairs meet, in turn. Says whether anything went."""
        before = self.kept()
        for pair in itertools.combinations(self.hosts, 2):
            self.push(*pair)
            self.push(*reversed(pair))
        return self.kept() != before


def message(draw, ring, host, queues):
    """What a send of this manager says."""
    to = draw.choice([other for other in ring.hosts if other != host] * 3 + [host])
    parts = send(to, draw.choice(queues), "x" * draw.randrange(1, 4), draw.choice(("-", "-", "-", "0"))).split(",")
    notices = rf"DIRECT=OS:{draw.choice(ring.hosts)}\PRIVATE$\notes"
    parts[2:6] = draw.choice(("-", "-", "-", "0")), parts[3], draw.choice(FLAGS), draw.choice((notices, notices, "-"))
    return ",".join(parts)


def act(draw, ring):
    """One call of a manager, or one connection of two."""
    host, other = draw.sample(ring.hosts, 2)
    place = draw.choice(("orders", "orders", "few", "notes", ";deadletter", ";deadxact", ";journal", "orders;journal"))
    flags = draw.choice(("recoverable", "recoverable", "express"))
    draw.choice((
        lambda: ring.call("commit", host, *(message(draw, ring, host, ("orders", "orders", "few", "none")) for _ in range(draw.randrange(1, 5)))),
        lambda: ring.call("commit", host, message(draw, ring, host, ("orders", "orders", "few")), "take,orders"),
        lambda: ring.call("send", host, flags, str(draw.randrange(8)), message(draw, ring, host, ("notes", "notes", "few", "none"))),
        lambda: ring.call("send", host, flags, str(draw.randrange(8)), message(draw, ring, host, ("notes", "notes", "orders"))),
        lambda: ring.call("take", host, place),
        lambda: ring.call(draw.choice(("tick", "checkpoint")), host),
        lambda: draw.choice((lambda: ring.call("purge", host, place), lambda: ring.call("roll", host, str(draw.randrange(1, 5)))))(),
        lambda: ring.push(host, other),
        lambda: ring.push(host, other, (draw.randrange(2), draw.random() * 0.006)),
    ))()


def recovers(seed, folder):
    """Whether a drawn ring is drained by the schedule."""
    draw = random.Random(seed)
    ring = Ring(folder, draw.choice((3, 3, 4)))
    for _ in range(CALLS):
        act(draw, ring)
    time.sleep(1.1)  # so that what was drawn to expire is due
    for host in ring.hosts:
        ring.call("tick", host)
    work = ring.waits()
    counts["rings"] += 1
    counts["with waiting messages of streams"] += work > 0
    counts["such messages"] += work
    for name in ("something went in the first round", "something went in the second round"):
        counts[name] += ring.meet()
    return ring.waits() == 0 and not ring.meet()


with folder() as room:
    bad = [seed for seed in range(SEED, SEED + RINGS) if not recovers(seed, room)]
print(*(f"{name}: {count}" for name, count in counts.items()), f"not drained: {bad or 'none'}", sep="\n")
sys.exit(bool(bad))
