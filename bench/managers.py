"""Two managers on this machine, alpha and beta, for the benches that disturb them, kill.py, race.py, faults.py, unsettled.py and day.py; how a store lies; and the program and the port of these and the other ones.

MQB names another program than `./mqb --where` does, MQB_PORT another port than 1801, FOLDER another place for the stores than the system's for files that pass.
"""
import collections, os, pathlib, subprocess, tempfile, time

TOP = pathlib.Path(__file__).resolve().parent.parent
MQB = os.environ.get("MQB") or subprocess.check_output([TOP / "mqb", "--where"], text=True).strip()
PORT = int(os.environ.get("MQB_PORT", "1801"))
GUIDS = {"alpha": "0a0b0c0d-0e0f-1011-1213-141516171819", "beta": "1a1b1c1d-1e1f-2021-2223-242526272829"}
OTHER = {"alpha": "beta", "beta": "alpha"}
MOST_OPS = 64  # of a transaction
PAGE, HEAD = 4096, 17  # bytes of a store
Based = collections.namedtuple("Based", "head second place size")  # where a store has its head; whether the second area is in use, its place, and its bytes with the gate


def mqb(word, *words, **more):
    return subprocess.run([MQB, word, *words], capture_output=True, text=True, **more)


def asked(word, *words):
    """The lines of a command that must go well."""
    done = mqb(word, *words)
    assert done.returncode == 0, (word, words, done.returncode, done.stdout, done.stderr)
    return done.stdout.splitlines()


def started(word, *words, **more):
    return subprocess.Popen([MQB, word, *words], **{"stdout": subprocess.PIPE, "stderr": subprocess.DEVNULL, "text": True, **more})


def has(word):
    """Whether the program has this word."""
    return any(line.startswith(f"mqb {word} ") for line in asked("--help"))


def send(host, queue, body="x", life="-"):
    return rf"send,DIRECT=OS:{host}\PRIVATE$\{queue},-,{life},-,-,-,{body}"


def based(store):
    """How a store with a base lies; None of one without."""
    with open(store, "rb") as file:
        def number(at, size):
            file.seek(at)
            return int.from_bytes(file.read(size), "little")
        if number(4, 1) != 2:
            return None
        head = PAGE * number(5, 3)
        second = number(head, 1) == 1
        place = number(head + (9 if second else 1), 8)
        return Based(head, second, place, number(place, 4) + 5)


def is_listening(port):
    """Whether somebody listens on a port, without connecting: a connection would be served."""
    rows = [line.split() for line in open("/proc/net/tcp")]
    return any(row[1].endswith(f":{port:04X}") and row[3] == "0A" for row in rows)


def listening(process):
    """Waits until a program listens on the port."""
    while not is_listening(PORT):
        if process.poll() is not None:
            raise SystemExit(f"nobody listens: {process.communicate()[0]}")
        time.sleep(0.002)


def ids_of(lines):
    """What stands in the queues and places of a manager, by their names."""
    rows = [line.split() for line in lines]
    places = {row[2] if row[1] == "queue" else row[1]: row for row in rows if row[1] in ("queue", "dead", "deadxact", "journal")}
    return {name: row[3 if row[1] == "queue" else 2:] for name, row in places.items()}


def marks_of(lines):
    """How many messages were committed to the streams of a manager, and how many were acknowledged; and the last that was decided of the streams that come to it."""
    rows = [line.split() for line in lines]
    out = [row for row in rows if row[1] == "out"]
    return sum(int(row[4]) for row in out), sum(int(row[6]) for row in out), sum(int(row[5]) for row in rows if row[1] == "in")


class Ends:
    """The stores of the two, each with a queue `orders` for what the other one commits, and the bodies that are to come to it."""

    def __init__(self, folder):
        self.stores = {host: f"{folder}/{host}.store" for host in GUIDS}
        self.bodies = {host: [] for host in GUIDS}
        for host, store in self.stores.items():
            pathlib.Path(store).unlink(missing_ok=True)
            asked("init", store, host, GUIDS[host], "127.0.0.1")
        for host, store in self.stores.items():
            asked("peer", store, OTHER[host], GUIDS[OTHER[host]], "127.0.0.1")
            asked("create", store, "orders", "tx", "1000000", "none")

    def commit(self, host, count):
        """Commits so many messages for the other one."""
        bodies = [f"{host}{len(self.bodies[OTHER[host]]) + at}" for at in range(count)]
        asked("commit", self.stores[host], *(send(OTHER[host], "orders", body) for body in bodies))
        self.bodies[OTHER[host]] += bodies

    def list(self, host):
        return asked("list", self.stores[host])

    def agree(self):
        """What both say fits together: nothing is twice or out of order, and what one has as acknowledged is decided at the other. Says how much is acknowledged, and how much is decided."""
        lines = {host: self.list(host) for host in self.stores}
        marks = [0, 0]
        for host in lines:
            orders = ids_of(lines[host])["orders"]
            committed, acknowledged, _ = marks_of(lines[OTHER[host]])
            _, _, last = marks_of(lines[host])
            assert len(orders) == len(set(orders)) == last, (host, len(orders), last)
            assert orders == sorted(orders, key=lambda name: int(name.split(".")[1])), (host, orders)
            assert acknowledged <= last <= committed == len(self.bodies[host]), (host, acknowledged, last, committed, len(self.bodies[host]))
            marks = [marks[0] + acknowledged, marks[1] + last]
        return marks

    def count(self):
        """How many messages were committed."""
        return sum(map(len, self.bodies.values()))

    def drain(self):
        """Brings over all that waits, from either side, and takes it: each message must come once, in the order of its commit."""
        for host in self.stores:
            for _ in range(5):  # on a busy machine a peer may be taken for a silent one
                serving = started("serve", self.stores[OTHER[host]], "1")
                listening(serving)
                pushed = mqb("push", self.stores[host], OTHER[host])
                serving.communicate()
                if pushed.stdout == "connection 1: ended\n":
                    break
        assert self.agree() == [self.count()] * 2, (self.agree(), self.count())
        for host, store in self.stores.items():
            came = []
            for at in range(0, len(self.bodies[host]), MOST_OPS):
                lines = asked("commit", store, *["take,orders"] * min(MOST_OPS, len(self.bodies[host]) - at))
                came += [bytes.fromhex(line.split()[1]).decode() for line in lines if line.startswith("body ")]
            assert came == self.bodies[host], (host, came, self.bodies[host])
            assert ids_of(self.list(host))["orders"] == [], host


def folder():
    """A folder for stores, which goes with the program."""
    return tempfile.TemporaryDirectory(dir=os.environ.get("FOLDER"))
