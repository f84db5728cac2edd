#!/usr/bin/env python3
"""race.py [ROUNDS [SEED]]: two drawn words at once on the store of alpha, ROUNDS times (200): commit, take, send, purge, tick, create, checkpoint, list, peek, push beside a `serve` of
beta's store, and serve and attend beside a `push` of it.

Each word either does its work and prints its line, or finds the store in use and changes nothing (status 6). Behind each round the store must hold just what was
acknowledged: each message that was said to be put, once and in order, but those that were said to be taken, purged or swept; each queue that was said to be made. What
`list` and `peek` print is so before the other word, or behind it. At the end all is brought over and taken: each message once, in the order of the commits.

Seen, of 200 rounds of seed 1, by the released program whose sum begins with b9784d31: 399 words were done and 1 found the store in use, and each of 235 messages came once; 166 seconds on a busy machine.

It stands outside the gate. Its port and the next one must be free: 1801, or MQB_PORT. MQB names another program than `./mqb --where` does. A store in use is waited for
two seconds, or MQB_HOLD.
"""
import collections, os, random, re, subprocess, sys, time
from managers import PORT, Ends, asked, folder, has, ids_of, is_listening, listening, send, started

ROUNDS = int(sys.argv[1]) if len(sys.argv) > 1 else 200
SEED = int(sys.argv[2]) if len(sys.argv) > 2 else int(time.time())
IN_USE = 6
os.environ.setdefault("MQB_HOLD", "2")
os.environ["MQB_WAIT"] = "2000"
WORDS = {
    "commit": ["commit", send(".", "stock"), send("beta", "orders", "BODY")],
    "take": ["take", "stock"],
    "send": ["send", "recoverable", "3", send(".", "notes")],
    "purge": ["purge", "notes"],
    "tick": ["tick"],
    "create": ["create", "NAME", "tx", "10", "none"],
    "checkpoint": ["checkpoint"],
    "list": ["list"],
    "peek": ["peek", "stock"],
    "push": ["push", "beta"],
    "serve": ["serve", "1"],
    "attend": ["attend", "1"],
}


class Raced(Ends):
    """The stores of the two, and what alpha's queues hold by what was acknowledged."""

    def __init__(self, folder):
        super().__init__(folder)
        self.store, self.there = self.stores["alpha"], {"stock": [], "notes": [], "due": []}
        for queue, kind in (("stock", "tx"), ("notes", "plain"), ("due", "tx")):
            asked("create", self.store, queue, kind, "1000000", "none")

    def fill(self):
        """A message to take, one to purge and one that is due, where there is none; and one of beta's for alpha."""
        for queue, words in (("stock", ["commit", self.store, send(".", "stock")]), ("due", ["commit", self.store, send(".", "due", life=0)]),
                             ("notes", ["send", self.store, "recoverable", "3", send(".", "notes")])):
            if not self.there[queue]:
                self.believe((queue, asked(*words)[0]))
        self.commit("beta", 1)

    def believe(self, *told):
        """What lines acknowledge: first the messages that are put here, each into the queue that is told with its line, and then those that leave; each in the order of their numbers."""
        said = [(what, queue, of.split()[-1]) for queue, line in told for what, of in re.findall(r"\[(\w+) ([^]]*)\]", line)]
        for what, queue, name in sorted(said, key=lambda one: (one[0] != "local", int(one[2].split(".")[-1]))):
            if what == "local":
                assert name not in self.there[queue], told
                self.there[queue].append(name)
            elif what == "took":
                assert self.there["stock"][0] == name, (told, self.there)
                self.there["stock"].remove(name)
            elif what in ("purged", "swept"):
                self.there["notes" if what == "purged" else "due"].remove(name)

    def race(self, words, wait):
        """Two words at once, the second one a little later. Gives how each ended and what it printed."""
        more = [f"race{random.randrange(1 << 60)}" for _ in words]
        running, helpers = [], []
        if "push" in words:
            helpers.append(started("serve", self.stores["beta"], str(words.count("push")), stdout=subprocess.DEVNULL))
            listening(helpers[0])
        for word, name in zip(words, more):
            asks = [part.replace("BODY", name).replace("NAME", name) for part in WORDS[word]]
            port = PORT + 1 if word in ("serve", "attend") else PORT
            running.append(started(asks[0], self.store, *asks[1:], env={**os.environ, "MQB_PORT": str(port)}))
            time.sleep(wait)
        called, last = 0, time.time()
        while any(process.poll() is None for process in running):
            is_wanted = called < sum(word in ("serve", "attend") for word in words)
            is_late = time.time() - last > 2 and any(word == "serve" and process.poll() is None for word, process in zip(words, running))  # what attends took both
            if (is_wanted or is_late) and is_listening(PORT + 1):
                last = time.time()
                pushing = started("push", self.stores["beta"], "alpha", stdout=subprocess.DEVNULL, env={**os.environ, "MQB_PORT": str(PORT + 1)})
                called += pushing.wait() == 0  # else once more: beta's store may be in use, too
            if words.count("push") and running[words.index("push")].poll() is not None and len(set(words)) == 2:
                end(helpers[0])
            time.sleep(0.005)
        for helper in helpers:
            end(helper)
        return [(word, name, process.returncode, process.communicate()[0]) for word, name, process in zip(words, more, running)]

    def look(self, ends, before):
        """The store holds what was acknowledged."""
        lines, told = self.list("alpha"), []
        for word, name, status, printed in sorted(ends, key=lambda one: [int(number) for number in re.findall(r"alpha\.(\d+)", one[3])]):  # in the order of what was committed
            if status == IN_USE:
                assert printed in ("", "fault: diskfault\n"), (word, printed)
            elif word == "commit":
                assert status == 0, (word, status, printed)
                told.append(("stock", printed))
                self.bodies["beta"].append(name)
            elif word in ("take", "send", "purge", "tick"):
                assert status == 0 or (status, printed) == (11, "queueempty\n"), (word, status, printed)
                told.append(("notes", printed))
            elif word == "create":
                assert printed == "ok\n" and f"alpha queue {name}" in lines, (word, printed)
            elif word == "checkpoint":
                assert printed == "ok\n", (word, printed)
            elif word == "list":
                assert status == 0 and printed.splitlines() in (before, lines), (printed, before, lines)
            elif word == "peek":
                fronts = {(ids_of(seen)["stock"] or [None])[0] for seen in (before, lines)}
                assert (status == 0 and printed.split()[0] in fronts) or (status == 11 and None in fronts), (printed, fronts)
            else:
                assert status in (0, 7, 9), (word, status, printed)
        self.believe(*told)
        ids = ids_of(lines)
        for queue, there in self.there.items():
            assert ids[queue] == there, (queue, ids[queue], there)
        self.agree()


def end(helper):
    """Lets a program end that has no more to do, or ends it."""
    try:
        helper.wait(0.2)
    except subprocess.TimeoutExpired:
        helper.kill()
        helper.wait()


def main():
    random.seed(SEED)
    words = [word for word in WORDS if has(word)]
    print(f"seed {SEED}, {', '.join(words)}", flush=True)
    counts, began = collections.Counter(), time.time()
    with folder() as name:
        stores = Raced(name)
        for at in range(ROUNDS):
            stores.fill()
            drawn, before = random.choices(words, k=2), stores.list("alpha")
            ends = stores.race(drawn, random.choice((0, 0, random.uniform(0, 0.01))))
            try:
                stores.look(ends, before)
            except AssertionError:
                print(f"round {at + 1} of seed {SEED}: {ends}", flush=True)
                raise
            counts.update("in use" if status == IN_USE else "done" if status == 0 else f"status {status}" for _, _, status, _ in ends)
        stores.drain()
        messages = stores.count()
    said = ", ".join(f"{count} {end}" for end, count in sorted(counts.items()))
    print(f"{ROUNDS} rounds of two words: {said}; {messages} messages went over, each once; {time.time() - began:.0f} s")


main()
