#!/usr/bin/env python3
"""hostile.py [RESETS [SLOW]]: `mqb serve` with RESETS connections (10,000) that are reset at random moments, and SLOW (1,000) whose peer stops within a packet or sends
a byte now and then, over the loopback. Every thousand of the first and hundred of the others a message is committed and pushed. The server must go on to the end, each
push must end well, and what was acknowledged must be there. A server waits MQB_WAIT milliseconds for a silent peer, here 90, and a slow peer sends a byte each 30.

Seen: 10,000 and 1,000 in 104 seconds, 20 pushes in between; these 20 ended well, the others were `netfault`, and each message was there once.

It stands outside the gate. Its port must be free: 1801, or MQB_PORT. MQB names another program than `./mqb --where` does.
"""
import os, random, re, socket, struct, subprocess, sys, tempfile, time
from managers import MQB, PORT, listening

RESETS = int(sys.argv[1]) if len(sys.argv) > 1 else 10_000
SLOW = int(sys.argv[2]) if len(sys.argv) > 2 else 1_000
ALPHA = ("alpha", "0a0b0c0d-0e0f-1011-1213-141516171819", "127.0.0.1")
BETA = ("beta", "1a1b1c1d-1e1f-2021-2223-242526272829", "127.0.0.1")
os.environ["MQB_WAIT"] = "90"


def asked(*words):
    """The lines of a command that must go well."""
    done = subprocess.run([MQB, *words], capture_output=True, text=True)
    assert done.returncode == 0, (words, done.returncode, done.stdout, done.stderr)
    return done.stdout.splitlines()


def greeting(alpha):
    """The first bytes of a push: what alpha sends to somebody who answers nothing."""
    with socket.socket() as listener:
        listener.setsockopt(socket.SOL_SOCKET, socket.SO_REUSEADDR, 1)
        listener.bind(("127.0.0.1", PORT))
        listener.listen(1)
        pushing = subprocess.Popen([MQB, "push", alpha, "beta"], stdout=subprocess.DEVNULL)
        conn, _ = listener.accept()
        with conn:
            came = conn.recv(65_536)
        pushing.wait()
    assert len(came) > 500, len(came)
    return came


def reached():
    """A connection to the server, which may be slow to take it."""
    conn = socket.create_connection(("127.0.0.1", PORT), 60)
    conn.setsockopt(socket.SOL_SOCKET, socket.SO_LINGER, struct.pack("ii", 1, 0))  # a close is a reset
    return conn


def reset(bytes_):
    """Sends a front of these bytes, and resets the connection a little later."""
    with reached() as conn:
        try:
            conn.sendall(bytes_[: random.choice((0, random.randrange(len(bytes_)), len(bytes_)))])
            time.sleep(random.choice((0, random.uniform(0, 0.003))))
        except OSError:
            pass


def stop(bytes_):
    """Sends a front of these bytes, and waits until the server ends the connection."""
    with reached() as conn:
        conn.sendall(bytes_[: random.randrange(1, len(bytes_))])
        ended(conn, 20)


def trickle(bytes_):
    """Sends a byte each 30 milliseconds until the server ends the connection, which it must do long before all are sent."""
    began = time.time()
    with reached() as conn:
        for byte in bytes_:
            try:
                conn.sendall(bytes((byte,)))
            except OSError:
                return
            if ended(conn, 0.03):
                return
            assert time.time() - began < 20, "a byte now and then holds the server"
    raise AssertionError("the server took all")


def ended(conn, wait):
    """Whether the server ends the connection within so many seconds."""
    conn.settimeout(wait)
    try:
        while conn.recv(65_536):
            pass
    except TimeoutError:
        return False
    except OSError:
        pass
    return True


def main():
    random.seed(20)
    with tempfile.TemporaryDirectory() as folder:
        alpha, beta = f"{folder}/alpha.store", f"{folder}/beta.store"
        asked("init", alpha, *ALPHA), asked("init", beta, *BETA), asked("peer", alpha, *BETA), asked("peer", beta, *ALPHA)
        asked("create", beta, "orders", "tx", "1000000", "none")
        bytes_ = greeting(alpha)
        ways = [reset] * RESETS + [(stop, trickle)[at % 2] for at in range(SLOW)]
        pushes = [at for at in range(len(ways)) if (at % 1000 == 999 if at < RESETS else (at - RESETS) % 100 == 99)]
        said = open(f"{folder}/said", "w+")  # a pipe that is not read would hold the server
        serving = subprocess.Popen([MQB, "serve", beta, str(len(ways) + len(pushes))], stdout=said)
        listening(serving)
        began = time.time()
        for at, way in enumerate(ways):
            way(bytes_)
            if at in pushes:
                asked("commit", alpha, rf"send,DIRECT=OS:beta\PRIVATE$\orders,-,-,-,-,-,order{at}")
                assert asked("push", alpha, "beta") == ["connection 1: ended"]
        serving.wait(120)
        said.seek(0)
        lines = said.read().splitlines()
        assert serving.returncode == 0 and len(lines) == len(ways) + len(pushes), (serving.returncode, lines[-3:])
        ends = {}
        for line in lines:
            how = re.sub(r"bad .*", "bad", line.split(": ", 1)[1])
            ends[how] = ends.get(how, 0) + 1
        queue = next(line.split()[3:] for line in asked("list", beta) if line.startswith("beta queue orders"))
        assert len(set(queue)) == len(queue) == len(pushes), (len(queue), len(pushes))
        counts = ", ".join(f"{count} {how}" for how, count in sorted(ends.items()))
        print(f"{RESETS} that were reset, {SLOW} that were slow, {len(pushes)} pushes, {time.time() - began:.0f} s: {counts}; each message is there once")


main()
