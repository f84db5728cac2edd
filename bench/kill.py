#!/usr/bin/env python3
"""kill.py [ROUNDS [WORD ..]]: kills each word that writes a store by signal 9, at random moments, ROUNDS times each (100), on real files and over the loopback.

After each kill the store must open, and what the word did is there whole or not at all; a call whose line was printed is there. Of a word that has a connection both
stores must agree: what one has as acknowledged is decided at the other, and nothing is twice or out of order. Behind fifty rounds of such a word everything is
brought over and taken: each message once, in the order of the commits. It prints for each word how often its line was printed (`said`), the call was made and its line
was not (`made`), and nothing was done (`not`); `part` is an `init` that left a file which is no store. Of connections: all that waited on both sides was acknowledged
(`whole`), something was decided that its sender had not heard of (`ahead`), or neither (`short`). `first_checkpoint` is `checkpoint` at a store without a base: `list` says
what it said, and the next checkpoint is made. FILL times 8 messages of 2,000 bytes (100) are in such a store.

Seen, of 300 kills each, by the released program whose sum begins with b9784d31, on a machine with twice as many busy programs as processors (said, made, not): peer 108, 13, 179; create 129, 18,
153; send 154, 19, 127; commit 136, 15, 149; take 172, 11, 117; purge 130, 22, 148; tick 101, 30, 169; roll 118, 35, 147; init 199, 22, 33, and 46 part; (whole, ahead, short): serve 157, 81, 62; attend 170,
70, 60; probe 241, 25, 34; push 223, 31, 46; fetch 206, 49, 45, and the 9,000 messages of these five came once each, in order. Two runs side by side took 8 minutes. The program 21bffc63, before it, stood 1,000 of each.
The one whose sum begins with 099e2b06, of 500 kills each: first_checkpoint 226, 41, 233; checkpoint 81, 83, 336; in 6 minutes. Of 100 kills of each other word it stood all.

It stands outside the gate. Its port must be free: 1801, or MQB_PORT. MQB names another program than `./mqb --where` does.
"""
import collections, os, pathlib, random, shutil, socket, subprocess, sys, time
from managers import GUIDS, MQB, PORT, Ends, asked, based, folder, has, ids_of, listening, marks_of, mqb, send, started

ROUNDS = int(sys.argv[1]) if len(sys.argv) > 1 else 100
BATCH = 50  # rounds over one pair of stores: a manager knows 64 peers
FILL = int(os.environ.get("FILL", "100"))
HERE = ("127.0.0.1",)


def killed(wait, word, *words):
    """What a command prints that is killed after so many seconds."""
    running = started(word, *words)
    time.sleep(wait)
    running.kill()
    return running.communicate()[0]


def outcome(printed, made):
    """How a call ended whose line may have been printed, and which was made or not."""
    assert made or not printed.endswith("\n"), printed
    return "said" if printed.endswith("\n") else "made" if made else "not"


class Calls(Ends):
    """A round of each word that makes one call: what it needs is made ready, it is killed, and the store is looked at."""

    def __init__(self, folder):
        super().__init__(folder)
        self.store, self.rounds = self.stores["alpha"], 0
        asked("create", self.store, "notes", "plain", "1000000", "none")
        asked("create", self.store, "done", "tx", "1000000", "none")

    def ids(self, queue):
        return ids_of(self.list("alpha")).get(queue)

    def lives(self, wait, word, *words):
        self.rounds += 1
        return killed(wait, word, self.store, *words)

    def init(self, wait):
        fresh = pathlib.Path(f"{self.store}.{self.rounds}")
        self.rounds += 1
        printed = killed(wait, "init", str(fresh), "gamma", GUIDS["alpha"], *HERE)
        status = mqb("list", str(fresh)).returncode
        part = fresh.exists() and fresh.stat().st_size > 0 and status != 0
        assert status in (0, 6, 8) and (status == 6) <= (not fresh.exists()), status
        if part:
            fresh.unlink()
        if status != 0:
            asked("init", str(fresh), "gamma", GUIDS["alpha"], *HERE)
        assert not (part and printed.endswith("\n"))
        return "part" if part else outcome(printed, status == 0)

    def peer(self, wait):
        peer = (f"peer{self.rounds}", f"{self.rounds:08x}-0e0f-1011-1213-141516171819", *HERE)
        printed = self.lives(wait, "peer", *peer)
        again = mqb("peer", self.store, *peer).stdout
        assert again in ("ok\n", "peerthere\n"), again
        return outcome(printed, again == "peerthere\n")

    def create(self, wait):
        name = f"queue{self.rounds}"
        printed = self.lives(wait, "create", name, "tx", "10", "none")
        return outcome(printed, self.ids(name) is not None)

    def send(self, wait):
        before = self.ids("notes")
        printed = self.lives(wait, "send", "recoverable", "3", send(".", "notes"))
        more = [name for name in self.ids("notes") if name not in before]
        assert len(more) <= 1 and (not printed.endswith("\n") or printed.split()[1] == more[0]), (printed, more)
        return outcome(printed, bool(more))

    def commit(self, wait):
        """It takes a message and sends one here and one to the peer: all of it or nothing."""
        asked("commit", self.store, send(".", "orders"))
        before = self.list("alpha")
        printed = self.lives(wait, "commit", "take,orders", send(".", "done"), send("beta", "orders"))
        after = self.list("alpha")
        steps = [len(ids_of(before)["orders"]) - len(ids_of(after)["orders"]), len(ids_of(after)["done"]) - len(ids_of(before)["done"]), marks_of(after)[0] - marks_of(before)[0]]
        assert steps in ([0, 0, 0], [1, 1, 1]), steps
        return outcome(printed, steps == [1, 1, 1])

    def take(self, wait):
        asked("commit", self.store, send(".", "orders"))
        before = self.ids("orders")
        printed = self.lives(wait, "take", "orders")
        after = self.ids("orders")
        assert after in (before, before[1:]), (before, after)
        assert not printed.endswith("\n") or printed.split()[1] == before[0], (printed, before)
        return outcome(printed, after != before)

    def purge(self, wait):
        asked("commit", self.store, *[send(".", "orders")] * 3)
        before = self.ids("orders")
        printed = self.lives(wait, "purge", "orders")
        after = self.ids("orders")
        assert after in (before, []), (before, after)
        return outcome(printed, after == [])

    def tick(self, wait):
        """Three messages are due at once."""
        asked("commit", self.store, *[send(".", "done", life=0)] * 3)
        before = self.ids("done")
        printed = self.lives(wait, "tick")
        after = self.ids("done")
        assert after in (before, []), (before, after)
        return outcome(printed, after == [])

    def roll(self, wait):
        """A sequence that is full at one message shows in the ordinal of the next but one."""
        asked("roll", self.store, "65535")
        asked("commit", self.store, send("beta", "orders"))
        printed = self.lives(wait, "roll", "1")
        first, second = (asked("commit", self.store, send("beta", "orders"))[0].split() for _ in range(2))
        return outcome(printed, first[2] != second[2])


class Checkpoints(Calls):
    """A round of a checkpoint of a manager with many messages, from a store without a base or from one with a base and a record behind it."""

    def __init__(self, folder):
        super().__init__(folder)
        for _ in range(FILL):
            asked("commit", self.store, *[send(".", "orders", "*2000")] * 8)
        shutil.copyfile(self.store, f"{folder}/first")

    def first_checkpoint(self, wait):
        shutil.copyfile(f"{pathlib.Path(self.store).parent}/first", self.store)
        return self.rewritten(wait)

    def checkpoint(self, wait):
        if not based(self.store):
            asked("checkpoint", self.store)
        asked("take", self.store, "orders")
        return self.rewritten(wait)

    def rewritten(self, wait):
        before, lies = self.list("alpha"), based(self.store)
        printed = self.lives(wait, "checkpoint")
        made = based(self.store) != lies
        assert self.list("alpha") == before, "a checkpoint that was killed changed something"
        assert asked("checkpoint", self.store) == ["ok"]
        assert self.list("alpha") == before, "the next checkpoint changed something"
        return outcome(printed, made)


def bridged(store):
    """A probe of a store whose input and output are the first connection that comes; the listener is there behind this call."""
    listener = socket.socket()
    listener.setsockopt(socket.SOL_SOCKET, socket.SO_REUSEADDR, 1)
    listener.bind(("127.0.0.1", PORT))
    listener.listen(1)

    def probing():
        conn, _ = listener.accept()
        listener.close()
        with conn:
            return started("probe", store, stdin=conn, stdout=conn)
    return probing


def exchange(ends, victim, wait):
    """One connection from alpha to beta, of which the victim is killed, and then the other side."""
    word = "push" if victim in ("serve", "push") else "fetch"
    client = (word, ends.stores["alpha"], "beta") + (("1",) if word == "fetch" else ())
    if victim == "probe":
        probing = bridged(ends.stores["beta"])
        reaching = started(*client, stdout=subprocess.DEVNULL)
        serving = probing()
    else:
        serving = started(*(("attend", ends.stores["beta"], "60") if victim == "attend" else ("serve", ends.stores["beta"], "1000")), stdout=subprocess.DEVNULL)
        listening(serving)
        reaching = started(*client, stdout=subprocess.DEVNULL)
    first, second = (reaching, serving) if victim in ("push", "fetch") else (serving, reaching)
    time.sleep(wait)
    first.kill()
    first.wait()
    time.sleep(0.01)
    second.kill()
    second.wait()


def batches():
    """How many rounds there are over each pair of stores, until all are there."""
    return [min(BATCH, ROUNDS - at) for at in range(0, ROUNDS, BATCH)]


def calls(word, kind=Calls):
    """The rounds of a word that makes one call."""
    ends = collections.Counter()
    for count in batches():
        with folder() as name:
            stores = kind(name)
            began = time.time()
            asked("list", stores.store)
            least = time.time() - began
            for _ in range(count):
                ends[getattr(stores, word)(random.uniform(0, 2 * least))] += 1
    return ends


def checkpoints(word):
    return calls(word, Checkpoints)


def connections(word):
    """The rounds of a word that has a connection."""
    ends = collections.Counter()
    for count in batches():
        with folder() as name:
            stores = Ends(name)
            for _ in range(count):
                for host in stores.stores:
                    stores.commit(host, 3)
                exchange(stores, word, random.uniform(0, 0.12))
                acknowledged, decided = stores.agree()
                ends["ahead" if acknowledged < decided else "whole" if decided == stores.count() else "short"] += 1
            stores.drain()
            ends["messages"] += stores.count()
    return ends


def main():
    ways = {word: calls for word in ("init", "peer", "create", "send", "commit", "take", "purge", "tick", "roll")}
    ways |= {word: checkpoints for word in ("first_checkpoint", "checkpoint") if has("checkpoint")}
    ways |= {word: connections for word in ("serve", "attend", "probe", "push", "fetch") if has(word)}
    seed = int(time.time())
    random.seed(seed)
    print(f"seed {seed}, {MQB}", flush=True)
    for word in sys.argv[2:] or ways:
        began, ends = time.time(), ways[word](word)
        counts = ", ".join(f"{count} {name}" for name, count in sorted(ends.items()))
        print(f"{word}: {ROUNDS} kills: {counts}; {time.time() - began:.0f} s", flush=True)


main()
