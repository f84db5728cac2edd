#!/usr/bin/env python3
"""both_stores.py [STEPS [CHANGES [SEED]]]: this program and PEER (another program with the same words) over the same stores, those of alpha and beta, each of which either of them has written.

STEPS drawn words (300): create, commit, send, take, purge, tick, roll, a checkpoint each few words, and a push from either store, served by one program and made by the other one. Each
word but a push is done by both, each on a copy of the store: they must print the same, leave as many bytes, and behind a checkpoint the very same bytes; and each must list the same of
both copies. Then one of the copies, drawn, is the store. Each few words CHANGES copies (20) are changed, in a field, in a byte or by a cut: both must say the same of each, a
fault by its place. What they do not agree on is kept under KEEP, where that is named, and the status is 1.

Seen, by the released program whose sum begins with 099e2b06 beside mqb-peer, seed 1: 300 words, 55 checkpoints and 37 pushes among them, were answered alike and left the same bytes; of 680 changed stores 334 were stores to both, and 346 bad at the same place. It took 114 s.

It stands outside the gate. Its port must be free: 1801, or MQB_PORT. MQB names another program than `./mqb --where` does, PEER the other one.
"""
import collections, os, pathlib, random, shutil, subprocess, sys, time
from managers import GUIDS, HEAD, MQB, OTHER, based, folder, listening, send

PEER = os.environ.get("PEER") or sys.exit("both_stores.py: PEER names the other program")
STEPS = int(sys.argv[1]) if len(sys.argv) > 1 else 300
CHANGES = int(sys.argv[2]) if len(sys.argv) > 2 else 20
SEED = int(sys.argv[3]) if len(sys.argv) > 3 else int(time.time())
PROGRAMS = {"mqb": MQB, "peer": PEER}
QUEUES = {"orders": "tx", "stock": "tx", "notes": "plain"}
EDGES = [0, 1, 2, 7, 8, 9, 12, 17, 24, 25, 4095, 4096, 4112, 4113, 8_388_608, 8_388_609, 2**30 + 7, 2**30 + 8, 2**30 + 9, 2**31, 2**32 - 1, 2**62, 2**63 - 1, 2**63, 2**63 + 1, 2**64 - 1]
counts = collections.Counter()


def call(program, word, *words):
    """How a program ended, and what it printed."""
    done = subprocess.run([PROGRAMS[program], word, *words], stdout=subprocess.PIPE, stderr=subprocess.DEVNULL, timeout=120)
    return done.returncode, done.stdout.decode()


def bytes_of(store):
    return pathlib.Path(store).read_bytes()


def differ(store, *what):
    """Keeps a store on which the two do not agree."""
    counts["DIFFER"] += 1
    kept = ""
    if os.environ.get("KEEP"):
        kept = f"{os.environ['KEEP']}/{SEED}.{counts['DIFFER']}.store"
        shutil.copyfile(store, kept)
    print(*what, kept, flush=True)


class Stores:
    """The stores of alpha and beta."""

    def __init__(self, folder):
        self.stores = {host: f"{folder}/{host}.store" for host in GUIDS}
        self.changed = f"{folder}/changed.store"
        for host in GUIDS:
            self.do(host, "init", host, GUIDS[host], "127.0.0.1")
        for host in GUIDS:
            self.do(host, "peer", OTHER[host], GUIDS[OTHER[host]], "127.0.0.1")
            for queue, kind in QUEUES.items():
                self.do(host, "create", queue, kind, "100000", random.choice(("none", "journal")))

    def do(self, host, word, *words):
        """Both programs do the same on a copy each, and agree on what came of it."""
        store = self.stores[host]
        copies = {name: f"{store}.{name}" for name in PROGRAMS}
        for copy in copies.values():
            shutil.copyfile(store, copy) if word != "init" else pathlib.Path(copy).unlink(missing_ok=True)
        ends = {name: call(name, word, copies[name], *words) for name in PROGRAMS}
        if len(set(ends.values())) != 1:
            differ(store, "they answer", word, *words, ends)
        self.listed(*copies.values())
        one, other = map(bytes_of, copies.values())
        if len(one) != len(other) or word == "checkpoint" and one != other:
            differ(store, "they write otherwise:", word, *words, {name: len(bytes_of(copy)) for name, copy in copies.items()})
        counts[f"{word} {'done' if ends['mqb'][0] == 0 else ends['mqb'][1].strip().split(' ')[0]}"] += 1
        shutil.copyfile(random.choice(list(copies.values())), store)

    def listed(self, *stores):
        """Each program lists the same of each of these."""
        said = {(name, store): call(name, "list", store) for name in PROGRAMS for store in stores}
        if len(set(said.values())) != 1:
            differ(stores[0], "they list otherwise:", {(name, store[-10:]): (status, text[-200:]) for (name, store), (status, text) in said.items()})

    def push(self, host):
        """One connection from a store, by one program, to the other one's, by the other."""
        one, other = random.sample(list(PROGRAMS), 2)
        serving = subprocess.Popen([PROGRAMS[other], "serve", self.stores[OTHER[host]], "1"], stdout=subprocess.PIPE, stderr=subprocess.DEVNULL, text=True)
        listening(serving)
        status, printed = call(one, "push", self.stores[host], OTHER[host])
        serving.communicate()
        counts[f"push {'done' if status == 0 else printed.strip()}"] += 1
        for store in self.stores.values():
            self.listed(store)

    def step(self):
        host = random.choice(list(GUIDS))
        word = random.choice(("commit", "commit", "commit", "send", "send", "take", "take", "purge", "tick", "roll", "create", "checkpoint", "checkpoint", "checkpoint", "push", "push"))
        body, queue = random.choice(("x", "", f"*{random.randrange(3000)}")), random.choice(list(QUEUES))
        if word == "commit":
            ops = [random.choice((*[send(".", "stock", body), send(OTHER[host], "orders", body)] * 3, send(OTHER[host], "nowhere", body, "0"), "take,stock", "take,orders")) for _ in range(random.randrange(1, 6))]
            self.do(host, word, *ops)
        elif word == "send":
            self.do(host, word, "recoverable", str(random.randrange(8)), send(random.choice((".", OTHER[host])), "notes", body, random.choice(("-", "0"))))
        elif word in ("take", "purge"):
            self.do(host, word, random.choice((queue, f"{queue};journal", ";journal", ";deadxact", ";deadletter")))
        elif word == "roll":
            self.do(host, word, str(random.choice((1, 3, 65535))))
        elif word == "create":
            self.do(host, word, f"queue{random.randrange(100)}", random.choice(("tx", "plain")), "10", "none")
        elif word == "push":
            self.push(host)
        else:
            self.do(host, word)
        if random.random() < 0.1:
            self.change(host)

    def change(self, host):
        """Both say the same of copies that are changed."""
        image = bytes_of(self.stores[host])
        for _ in range(CHANGES):
            pathlib.Path(self.changed).write_bytes(altered(image, based(self.stores[host])))
            ends = {name: call(name, "list", self.changed) for name in PROGRAMS}
            if len(set(ends.values())) != 1:
                differ(self.changed, "of a store that was changed they say", {name: (status, text[-200:]) for name, (status, text) in ends.items()})
            counts["changed: " + (ends["mqb"][1].split("\n")[-2].split(" ")[1] if ends["mqb"][0] else "a store")] += 1


def fields(image, lies):
    """Where the numbers of a store's front stand, its head and its area, and how many bytes each has."""
    yield from ((0, 4), (4, 1), (5, 3), (8, 4))
    if lies:
        yield from ((lies.head, 1), (lies.head + 1, 8), (lies.head + 9, 8), (lies.place, 4), (lies.place + 4, 8))
        yield (random.randrange(lies.place + 12, lies.place + lies.size - 1), 4)
        yield (lies.place + lies.size - 1, 1)
        yield (lies.place + lies.size, 4)
    else:
        yield from ((24, 1), (25, 4), (29, 1))


def altered(image, lies):
    """A store with one field, one byte or the end changed."""
    image, way = bytearray(image), random.choice(("field", "field", "field", "byte", "base", "cut"))
    if way == "field":
        at, size = random.choice(list(fields(image, lies)))
        old = int.from_bytes(image[at:at + size], "little")
        new = random.choice((*EDGES, old + 1, old - 1, len(image), len(image) - random.randrange(20), random.randrange(2**64))) % 256**size
        image[at:at + size] = new.to_bytes(size, "little")
    elif way == "cut":
        edges = [24, 25, 56, len(image) - 1, *((lies.head, lies.head + HEAD, lies.place, lies.place + 12, lies.place + lies.size) if lies else ())]
        del image[max(0, random.choice((random.choice(edges) + random.randrange(-3, 4), random.randrange(len(image))))):]
    else:
        first, end = (lies.place + 12, lies.place + lies.size - 1) if way == "base" and lies else (0, len(image))
        image[random.randrange(first, end)] = random.choice((0, 1, 2, 255, random.randrange(256)))
    return bytes(image)


def main():
    random.seed(SEED)
    print(f"seed {SEED}, {MQB} beside {PEER}", flush=True)
    began = time.time()
    with folder() as name:
        stores = Stores(name)
        for _ in range(STEPS):
            stores.step()
    said = ", ".join(f"{count} {what}" for what, count in sorted(counts.items()))
    print(f"{STEPS} words: {said}; {time.time() - began:.0f} s", flush=True)
    sys.exit(1 if counts["DIFFER"] else 0)


main()
