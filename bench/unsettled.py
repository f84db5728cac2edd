#!/usr/bin/env python3
"""unsettled.py [ROUNDS]: kills `mqb commit`, `mqb push` and `mqb serve` behind the gate of a record and before its last sync, and `mqb checkpoint` behind the byte that switches over,
starts the store again, and then lets the power fail: what neither run had synced is thrown away. ROUNDS of each (70), on real files and over the loopback.

What was told is there still: the message that `list` showed; what beta acknowledged, so that alpha forgot it. At the end every message comes once, in the order of its
commit. The system's C compiler makes the library of `unsettled.c`, which kills the program and follows what is safe. It stands outside the gate.

Seen with the program from before a start synced: in the first round of `commit` the message that was listed is lost, in the first of `serve` the message that beta acknowledged, which
alpha forgot; of `push` nothing is lost. With the one whose sum begins with b9784d31, which syncs at its start, in 200 rounds of each: 600 kills, nothing that was told is lost, and every message came once.
With the one whose sum begins with 099e2b06, 50 kills of commit and 50 of checkpoint: nothing that was told is lost.

Its port must be free: 1801, or MQB_PORT. MQB names another program than `./mqb --where` does.
"""
import os, pathlib, random, shutil, subprocess, sys

from managers import Ends, asked, folder, has, listening, marks_of, send, started

ROUNDS = int(sys.argv[1]) if len(sys.argv) > 1 else 70
LIBRARY = pathlib.Path(__file__).resolve().parent / "unsettled.c"
KILLED = -9


def stopping(gate):
    """The environment in which a program is killed before the sync behind this gate."""
    return dict(os.environ, UNSETTLED_STOP=str(gate))


def power_fails(store):
    shutil.copy(store + ".safe", store)


def exchange(ends, serve_stops=None, push_stops=None):
    """One connection, in which one of the two may be killed. Says whether it was."""
    serving = started("serve", ends.stores["beta"], "1", env=stopping(serve_stops) if serve_stops else None)
    listening(serving)
    pushing = started("push", ends.stores["alpha"], "beta", env=stopping(push_stops) if push_stops else None)
    pushing.communicate()
    serving.communicate()
    return KILLED in (serving.returncode, pushing.returncode)


def commit_is_stopped(ends):
    """A commit is killed, and a list shows its message."""
    store, bodies = ends.stores["alpha"], ends.bodies["beta"]
    body = f"alpha{len(bodies)}"
    running = started("commit", store, send("beta", "orders", body), env=stopping(1))
    assert running.communicate()[0] == ""
    if marks_of(ends.list("alpha"))[0] > len(bodies):
        bodies.append(body)
    power_fails(store)
    assert marks_of(ends.list("alpha"))[0] == len(bodies), "a message that was listed is lost"
    return running.returncode == KILLED


def checkpoint_is_stopped(ends):
    """A checkpoint is killed, and the power fails at once, or a list and a commit go on from what it left."""
    store = ends.stores["alpha"]
    ends.commit("alpha", 1)
    before = ends.list("alpha")
    running = started("checkpoint", store, env=stopping(1))
    assert running.communicate()[0] == ""
    if random.random() < 0.5:
        assert ends.list("alpha") == before, "a checkpoint changed something"
        ends.commit("alpha", 1)
        before = ends.list("alpha")
    power_fails(store)
    assert ends.list("alpha") == before, "something that was told is lost"
    return running.returncode == KILLED


def serve_is_stopped(ends):
    """A serve is killed with a message that the next one knows as a duplicate, and acknowledges."""
    ends.commit("alpha", 1)
    killed = exchange(ends, serve_stops=1)
    assert not exchange(ends)
    power_fails(ends.stores["beta"])
    ends.agree()
    return killed


def push_is_stopped(ends):
    """A push is killed, at the record of what it offers or at that of what was acknowledged, and the next one goes on."""
    ends.commit("alpha", 1)
    killed = exchange(ends, push_stops=random.choice((1, 2)))
    assert not exchange(ends)
    power_fails(ends.stores["alpha"])
    ends.agree()
    return killed


def main():
    with folder() as name:
        library = f"{name}/unsettled.so"
        subprocess.run(["cc", "-shared", "-fPIC", "-Wall", "-o", library, LIBRARY, "-ldl"], check=True)
        os.environ["LD_PRELOAD"] = library
        for stopped in (commit_is_stopped, *[checkpoint_is_stopped] * has("checkpoint"), serve_is_stopped, push_is_stopped):
            ends = Ends(name)
            try:
                kills = sum(stopped(ends) for _ in range(ROUNDS))
            except AssertionError as lost:
                print(f"{stopped.__name__}: lost: {lost}")
                continue
            ends.drain()
            print(f"{stopped.__name__}: {kills} kills in {ROUNDS} rounds, nothing that was told is lost, and {ends.count()} messages came once each, in order")


main()
