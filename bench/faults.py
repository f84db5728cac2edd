#!/usr/bin/env python3
"""faults.py [WORD ..]: fails each system call of `mqb commit`, `take`, `checkpoint`, `serve`, `push`, `fetch` and `attend` in turn, with EIO, with ENOSPC and with EINTR, by `strace -e inject`.

Alpha and beta each have messages for the other one. The word runs at alpha, over a fresh copy of both stores, beside a sound program at the other end where it has a connection. Behind
it both stores must open; a call whose line was printed, or that ended with status 0, is there, and any other is there whole or not at all; what one has as acknowledged
is decided at the other. Then all is brought over without faults and taken: each message once, in the order of the commits. It prints for each word and error how many
calls were failed, and with which status the program ended how often: 127 is the loader's, `cut` a program that had not ended after LIMIT seconds (20). ERRORS=EIO tries that error alone. Of a
call that is made more than 40 times, as the looks of `attend` for a peer, the first twenty are failed and each tenth. A checkpoint is made of a store without a base, and then of one
with a base: `list` says behind it what it said before, and the next checkpoint is made.

Seen, by the released program whose sum begins with b9784d31, with each error: each of 61 calls of commit and of take, 116 of push, 117 of serve, 112 of fetch, and 173 of 303 of attend: 1,920 in all, of which
14 did not come. Both stores agreed each time, and each message came once. The first calls are the loader's: 15 end with its status, 2 or 3 by a signal. Of EIO and ENOSPC the disk's end with 6 (24 of commit
and take, 48 of the others), that of the output with 5, those of the net with 7 (21 or 22 of push, 23 or 24 of fetch, 5 of serve, 12 of attend), and others do no harm. Of EINTR the disk's are made again, but that of its
length, 6, and so is not that of the output, 5; of the net those that make a connection ready end with 7. Where the time limits of a connection cannot be set, serve lets it go and waits for another, and
attend ends with 7. One run took 34 minutes on a busy machine; attend, which looks each few milliseconds whether a peer came, took most of it.

Of a checkpoint, by the one whose sum begins with 099e2b06: each of 64 calls at a store without a base, and of 57 at one with a base, with each error, in 5 minutes: 15 end with the loader's status and 2 by a signal; of EIO and
ENOSPC the disk's end with 6 (27 and 20), that of the output with 5, and 19 do no harm; of EINTR all but the length and the output are made again. `list` said the same each time, and the next checkpoint was made.

A call that is failed is not made, and each run fails one: what a disk does that fails for good is not tried, nor what the system keeps behind a failed sync. A silent peer
is waited for two seconds (MQB_WAIT), so which calls a connection makes differs a little from run to run: a call that did not come is counted as `not reached`.
It stands outside the gate, and wants strace. Its port must be free: 1801, or MQB_PORT. MQB names another program than `./mqb --where` does.
"""
import collections, os, re, shutil, signal, subprocess, sys, time
from managers import MQB, Ends, asked, folder, has, ids_of, listening, marks_of, send, started

ERRORS = os.environ.get("ERRORS", "EIO ENOSPC EINTR").split()
MANY = 40  # of a call that is made more often the first half of them are failed, and behind them each tenth
LIMIT = float(os.environ.get("LIMIT", "20"))
STOCK = ["stock0", "stock1"]  # the bodies of the messages that alpha has from itself
os.environ["MQB_WAIT"] = "2000"


class Tried(Ends):
    """The stores of a round, which begin as those of the first one."""

    def __init__(self, folder, is_based):
        super().__init__(folder)
        self.alpha, self.beta, self.trace = self.stores["alpha"], self.stores["beta"], f"{folder}/trace"
        for queue in ("stock", "done"):
            asked("create", self.alpha, queue, "tx", "100", "none")
        asked("commit", self.alpha, *(send(".", "stock", body) for body in STOCK))
        if is_based:
            asked("checkpoint", self.alpha)
        for host in self.stores:
            self.commit(host, 3)
        self.first = {host: list(bodies) for host, bodies in self.bodies.items()}
        for store in self.stores.values():
            shutil.copyfile(store, f"{store}.first")

    def again(self):
        self.bodies = {host: list(bodies) for host, bodies in self.first.items()}
        for store in self.stores.values():
            shutil.copyfile(f"{store}.first", store)

    def traced(self, fault, word, *words):
        """A word under strace, which fails one call, or none."""
        inject = ["-e", "inject={}:error={}:when={}".format(*fault)] if fault else []
        return subprocess.Popen(["strace", "-qq", "-o", self.trace, *inject, MQB, word, *words], stdout=subprocess.PIPE, stderr=subprocess.DEVNULL, text=True, start_new_session=True)

    def ended(self, process):
        """What a program prints, and how it ends: within a time, or it is cut off."""
        try:
            return process.communicate(timeout=LIMIT)[0], process.returncode
        except subprocess.TimeoutExpired:
            os.killpg(process.pid, signal.SIGKILL)
            return process.communicate()[0], "cut"

    def call(self, fault, word):
        """A call at alpha: it is there whole or not at all, and whole where its line was printed."""
        ops = ["take,stock", send(".", "done"), send("beta", "orders", "more")] if word == "commit" else ["stock"]
        before = self.list("alpha")
        printed, status = self.ended(self.traced(fault, word, self.alpha, *ops))
        after = self.list("alpha")
        steps = [len(ids_of(before)["stock"]) - len(ids_of(after)["stock"]), len(ids_of(after)["done"]) - len(ids_of(before)["done"]), marks_of(after)[0] - marks_of(before)[0]]
        whole = [1, 1, 1] if word == "commit" else [1, 0, 0]
        assert steps in ([0, 0, 0], whole), steps
        assert steps == whole or not (status == 0 or printed.startswith(("committed", "took"))), (printed, status)
        self.bodies["beta"] += ["more"] * steps[2]
        left = asked("commit", self.alpha, *["take,stock"] * (len(STOCK) - steps[0]))
        assert [bytes.fromhex(line.split()[1]).decode() for line in left if line.startswith("body ")] == STOCK[steps[0]:], left
        return status

    def rewriting(self, fault, word):
        """A checkpoint of alpha, which changes nothing that alpha has, and does not keep the next one from being made."""
        before = self.list("alpha")
        printed, status = self.ended(self.traced(fault, word, self.alpha))
        assert self.list("alpha") == before, "a checkpoint changed something"
        assert status != 0 or printed == "ok\n", printed
        assert asked("checkpoint", self.alpha) == ["ok"]
        assert self.list("alpha") == before, "the next checkpoint changed something"
        return status

    def serving(self, fault, word):
        """Alpha takes in a connection of beta's, where it gets so far as to listen."""
        serving = self.traced(fault, word, self.alpha, "1")
        try:
            listening(serving)
        except SystemExit:
            return self.ended(serving)[1]
        fetching = started("fetch", self.beta, "alpha", "1")
        _, status = self.ended(serving) if fault else (None, 0)
        if status != 0:
            time.sleep(0.05)
            fetching.kill()
        fetching.wait()
        return self.ended(serving)[1] if not fault else status

    def reaching(self, fault, word):
        """Alpha connects to beta."""
        serving = started("serve", self.beta, "1", stdout=subprocess.DEVNULL)
        listening(serving)
        printed, status = self.ended(self.traced(fault, word, self.alpha, "beta", *(["1"] if word == "fetch" else [])))
        try:
            serving.wait(0.3 if status != 0 else LIMIT)
        except subprocess.TimeoutExpired:
            serving.kill()
            serving.wait()
        return status


def calls_of(trace):
    """The system calls of a trace, and how often each was made. A program's own end and its start cannot fail."""
    made = collections.Counter(re.findall(r"^(\w+)\(", open(trace).read(), re.M))
    return {name: count for name, count in made.items() if name not in ("execve", "exit_group")}


def numbers(count):
    """Which of so many calls of a name are failed."""
    return [at for at in range(1, count + 1) if count <= MANY or at <= MANY // 2 or at % 10 == 0]


def fail_each(tried, word):
    way = {"commit": tried.call, "take": tried.call, "checkpoint": tried.rewriting, "serve": tried.serving, "attend": tried.serving, "push": tried.reaching, "fetch": tried.reaching}[word]
    tried.again()
    assert way(None, word) == 0
    made = calls_of(tried.trace)
    for error in ERRORS:
        ends, began = collections.defaultdict(list), time.time()
        for name, count in made.items():
            for at in numbers(count):
                tried.again()
                status = way((name, error, at), word)
                reached = "(INJECTED)" in open(tried.trace).read()
                ends[f"status {status}" if reached else "not reached"].append(name)
                try:
                    tried.drain()
                except AssertionError as said:
                    print(f"{word}: {error} of {name} {at}: status {status}: {said}", flush=True)
                    ends["BAD"].append(name)
        counts = ", ".join(f"{len(names)} {end} ({' '.join(sorted(set(names)))})" for end, names in sorted(ends.items()))
        print(f"{word}: {error} of {sum(len(numbers(count)) for count in made.values())} of {sum(made.values())} calls: {counts}; {time.time() - began:.0f} s", flush=True)


def main():
    if not shutil.which("strace"):
        raise SystemExit("faults.py: strace is not there: apt-get install strace")
    print(MQB, flush=True)
    for word in sys.argv[1:] or ("commit", "take", "checkpoint", "serve", "push", "fetch", "attend"):
        for is_based in (False, True) if word == "checkpoint" else (False,):
            if has(word):
                with folder() as name:
                    fail_each(Tried(name, is_based), word)


main()
