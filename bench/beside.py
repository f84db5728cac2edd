#!/usr/bin/env python3
"""beside.py [SECONDS]: durable messages of one client, by mqb shell and by what else is installed, as ratios to raw loops of syncs in the same run.

Each cell is tried for so many seconds (2) in a folder of its own, three times in turn, and the best counts: messages a second, and in hundredths of the raw loops of one sync a message and of two.
A raw loop appends as many bytes as a record of mqb has and syncs; that of two syncs appends one byte behind them, and syncs again, as mqb does for a record and its gate. Of 64 messages in a transaction it does so once.

    put      one message in a transaction, and the next one when that is answered
    64       64 messages in a transaction
    pair     a producer puts while a consumer takes: messages that were taken. Of mqb both share one shell, whose client is 32 lines ahead
    flight   one message is put, then taken, then the next one: two transactions a message

SQLite is Python's own, with a WAL and synchronous=FULL. Where Debian's packages are installed: beanstalkd (-f0, which has no transactions), Redis (appendfsync always), PostgreSQL and RabbitMQ
(a durable queue, confirms; 64 messages before the confirms are awaited). DELAY is how many microseconds each sync waits besides, in all of them, by the library of delayed.c. FOLDER is where the files stand.
All is over pipes, sockets of the file system and the loopback. MQB names another program than `./mqb --where` does; ONLY=mqb,SQLite names those that are tried. It stands outside the gate.

Seen of the proved program whose sum begins with 5c93fa77, with a processor of its own (ONLY=mqb,SQLite, chrt -f 10 taskset -c 3), in hundredths of the loop of two syncs, put, 64, pair and flight: where each sync waits half a
millisecond besides mqb 97, 61, 51, 46 and SQLite, which syncs once, 152, 178, 175, 68; with the disk's own syncs, some 0.15 milliseconds each, mqb 86, 35, 66, 65 and SQLite 49, 128, 280, 104. A program of the same text
that was not proved had 95 and 97, 64 and 62. Of 64 messages a manager computes 0.6 milliseconds, beside the two syncs.

The one whose sum begins with 17d2e60e, likewise, where each sync waits half a millisecond besides: 64 messages 76 hundredths of the loop of two syncs, pair and flight 50 and 51; one message was quicker than the raw loop of Python.

All of them, with DELAY=500, on the same machine with three times as many busy programs as processors, which blurs each number by a half and more, in hundredths of the loop of one sync, and of that of two:

                     put           64            pair          flight
    mqb              42     66     42    106     26     42     34     54
    SQLite           52     81     40    101     65    103     29     46
    beanstalkd       92    145                   15     24     58     91
    Redis            48     76     27     68     73    114     32     50
    PostgreSQL       99    155     13     34     49     76     33     52
    RabbitMQ         34     54     12     30     20     31     22     34
"""
import collections, ctypes, os, pathlib, shutil, signal, socket, sqlite3, struct, subprocess, sys, threading, time
from managers import GUIDS, MQB, TOP, asked, folder

SECONDS = float(sys.argv[1]) if len(sys.argv) > 1 else 2
DELAY = os.environ.get("DELAY", "0")
ONLY = os.environ.get("ONLY", "").split(",")
BODY = "x" * 100
RECORD, RECORDS = 250, 64 * 240  # bytes of a record of one message, and of 64
AHEAD = 32


def rate(act, each=1):
    """Messages a second."""
    act()
    done, began = 0, time.perf_counter()
    while (spent := time.perf_counter() - began) < SECONDS:
        act()
        done += each
    return done / spent


class NotUp(Exception):
    pass


def within(folder, words, at, **more):
    """A program that runs until it is ended, once it listens there."""
    log = folder / f"{pathlib.Path(words[0]).name}.log"
    program = subprocess.Popen(words, cwd=folder, stdin=subprocess.DEVNULL, stdout=open(log, "wb"), stderr=subprocess.STDOUT, **more)
    till = time.monotonic() + 120
    while program.poll() is None and time.monotonic() < till:
        try:
            (socket.create_connection(at) if isinstance(at, tuple) else unix(at)).close()
            return program
        except OSError:
            time.sleep(0.05)
    program.kill()
    raise NotUp(f"{words[0]} does not listen: {log.read_text()[-500:]}")


def unix(path):
    end = socket.socket(socket.AF_UNIX)
    end.connect(str(path))
    return end


def free_port():
    with socket.create_server(("127.0.0.1", 0)) as server:
        return server.getsockname()[1]


def found(name, *places):
    """The path of a program, in one of these places or where programs are."""
    return shutil.which(name, path=os.pathsep.join([*places, os.environ["PATH"], "/usr/sbin"]))


class Raw:
    """The disk alone."""

    def __init__(self, folder, syncs):
        self.file, self.gate = open(folder / "raw", "wb", buffering=0), syncs == 2

    def append(self, size):
        self.file.write(b"x" * size)
        os.fsync(self.file.fileno())
        if self.gate:
            self.file.write(b"1")
            os.fsync(self.file.fileno())

    def put(self):
        self.append(RECORD)

    def put64(self):
        self.append(RECORDS)

    def close(self):
        self.file.close()


class Shell:
    """mqb shell."""
    SEND = rf"send,DIRECT=OS:alpha\PRIVATE$\orders,-,-,-,-,-,{BODY}"
    PUT, TAKE, MANY = (f"commit {ops}\n".encode() for ops in (SEND, "take,orders", " ".join([SEND] * 64)))

    def __init__(self, folder):
        asked("init", f"{folder}/store", "alpha", GUIDS["alpha"], "127.0.0.1")
        asked("create", f"{folder}/store", "orders", "tx", "4000000000", "none")
        self.program = subprocess.Popen([MQB, "shell", f"{folder}/store"], stdin=subprocess.PIPE, stdout=subprocess.PIPE, bufsize=0)
        self.answers = os.fdopen(os.dup(self.program.stdout.fileno()), "rb")

    def read(self):
        while not (line := self.answers.readline()).startswith(b"end "):
            pass
        assert line == b"end 0\n", line

    def ask(self, line):
        self.program.stdin.write(line)
        self.read()

    def put(self):
        self.ask(self.PUT)

    def put64(self):
        self.ask(self.MANY)

    def take(self):
        self.ask(self.TAKE)

    def pair(self):
        """Messages a second of a client that is some lines ahead."""
        for _ in range(AHEAD):
            self.program.stdin.write(self.PUT + self.TAKE)

        def act():
            self.program.stdin.write(self.PUT + self.TAKE)
            self.read()
            self.read()
        return rate(act)

    def close(self):
        self.program.kill()
        self.program.wait()


class SQLite:
    def __init__(self, folder):
        self.folder = folder
        self.base = self.opened()
        self.base.execute("create table orders (id integer primary key, body text)")

    def opened(self):
        base = sqlite3.connect(self.folder / "base", isolation_level=None, timeout=60, check_same_thread=False)
        base.execute("pragma journal_mode=wal")
        base.execute("pragma synchronous=full")
        return base

    def second(self):
        other = object.__new__(SQLite)
        other.base = self.opened()
        return other

    def put(self):
        self.base.execute("insert into orders (body) values (?)", (BODY,))

    def put64(self):
        self.base.execute("begin immediate")
        for _ in range(64):
            self.put()
        self.base.execute("commit")

    def take(self):
        return bool(self.base.execute("delete from orders where id = (select min(id) from orders) returning body").fetchall())

    def close(self):
        self.base.close()


class Beanstalkd:
    def __init__(self, folder):
        self.at = ("127.0.0.1", free_port())
        self.program = within(folder, [found("beanstalkd"), "-f0", "-b", str(folder), "-l", self.at[0], "-p", str(self.at[1])], self.at)
        self.connect()

    def connect(self):
        self.end = socket.create_connection(self.at)
        self.end.setsockopt(socket.IPPROTO_TCP, socket.TCP_NODELAY, 1)
        self.lines = self.end.makefile("rb")

    def second(self):
        other = object.__new__(Beanstalkd)
        other.at = self.at
        other.connect()
        return other

    def put(self):
        self.end.sendall(f"put 0 0 60 {len(BODY)}\r\n{BODY}\r\n".encode())
        assert self.lines.readline().startswith(b"INSERTED")

    def take(self):
        self.end.sendall(b"reserve-with-timeout 0\r\n")
        words = self.lines.readline().split()
        if words[0] != b"RESERVED":
            return False
        self.lines.read(int(words[2]) + 2)
        self.end.sendall(b"delete %s\r\n" % words[1])
        assert self.lines.readline() == b"DELETED\r\n"
        return True

    def close(self):
        self.program.kill()
        self.program.wait()


class Redis:
    def __init__(self, folder):
        self.path = folder / "redis.sock"
        words = "--port 0 --unixsocket redis.sock --appendonly yes --appendfsync always --save".split()
        self.program = within(folder, [found("redis-server"), *words, ""], self.path)
        self.connect()

    def connect(self):
        self.end = unix(self.path)
        self.lines = self.end.makefile("rb")

    def second(self):
        other = object.__new__(Redis)
        other.path = self.path
        other.connect()
        return other

    def ask(self, *commands):
        self.end.sendall(b"".join(f"{' '.join(words)}\r\n".encode() for words in commands))
        return [self.answer() for _ in commands]

    def answer(self):
        line = self.lines.readline()
        assert line[:1] in b"+:$*", line
        if line[:1] == b"$":
            return self.lines.read(int(line[1:]) + 2) if line != b"$-1\r\n" else None
        return [self.answer() for _ in range(int(line[1:]))] if line[:1] == b"*" else line

    def put(self):
        self.ask(["RPUSH", "orders", BODY])

    def put64(self):
        self.ask(["MULTI"], *[["RPUSH", "orders", BODY]] * 64, ["EXEC"])

    def take(self):
        return self.ask(["LPOP", "orders"])[0] is not None

    def close(self):
        self.program.kill()
        self.program.wait()


class PostgreSQL:
    PLACES = [str(path) for path in pathlib.Path("/usr/lib/postgresql").glob("*/bin")]

    def __init__(self, folder):
        as_user = ["setpriv", "--reuid=postgres", "--regid=postgres", "--clear-groups"] * (os.geteuid() == 0)
        if as_user:
            shutil.chown(folder, "postgres", "postgres")
            folder.parent.chmod(0o755)
        subprocess.run([*as_user, found("initdb", *self.PLACES), "-D", folder / "data", "-A", "trust", "-U", "alpha"], check=True, stdout=subprocess.DEVNULL, cwd=folder)
        words = [found("postgres", *self.PLACES), "-D", str(folder / "data"), "-c", "listen_addresses=", "-c", f"unix_socket_directories={folder}"]
        self.folder, self.program = folder, within(folder, [*as_user, *words], folder / ".s.PGSQL.5432")
        self.connect()
        self.ask("create table orders (id bigserial primary key, body text)")

    def connect(self):
        self.pq = ctypes.CDLL("libpq.so.5")
        for name, answers, given in (("connectdb", "p", "s"), ("status", "i", "p"), ("exec", "p", "ps"), ("resultStatus", "i", "p"), ("cmdTuples", "s", "p"), ("clear", "v", "p"), ("finish", "v", "p")):
            call = getattr(self.pq, f"PQ{name}")
            kinds = {"p": ctypes.c_void_p, "s": ctypes.c_char_p, "i": ctypes.c_int, "v": None}
            call.restype, call.argtypes = kinds[answers], [kinds[kind] for kind in given]
        for _ in range(100):  # it listens before it is ready
            self.end = self.pq.PQconnectdb(f"host={self.folder} user=alpha dbname=postgres".encode())
            if self.pq.PQstatus(self.end) == 0:
                return
            self.pq.PQfinish(self.end)
            time.sleep(0.1)
        raise NotUp("PostgreSQL is not ready")

    def second(self):
        other = object.__new__(PostgreSQL)
        other.folder = self.folder
        other.connect()
        return other

    def ask(self, text):
        result = self.pq.PQexec(self.end, text.encode())
        assert self.pq.PQresultStatus(result) in (1, 2), text
        count = self.pq.PQcmdTuples(result)
        self.pq.PQclear(result)
        return count

    def put(self):
        self.ask(f"insert into orders (body) values ('{BODY}')")

    def put64(self):
        self.ask("begin")
        for _ in range(64):
            self.put()
        self.ask("commit")

    def take(self):
        return self.ask("delete from orders where id = (select id from orders order by id limit 1 for update skip locked) returning body") != b"0"

    def close(self):
        self.program.send_signal(signal.SIGINT)  # it lets its clients go
        self.program.wait()


class RabbitMQ:
    """A client of AMQP 0-9-1, of one channel."""
    PLACES = ["/usr/lib/rabbitmq/bin"]

    def __init__(self, folder):
        self.at, names = ("127.0.0.1", free_port()), ("127.0.0.1", free_port())
        self.names = within(folder, [found("epmd", "/usr/lib/erlang/bin"), "-address", names[0], "-port", str(names[1])], names)
        (folder / "plugins").write_text("[].")
        (folder / "conf.conf").write_text(f"listeners.tcp.default = {self.at[0]}:{self.at[1]}\n")
        more = {"NODENAME": f"mqb{self.at[1]}@localhost", "DIST_PORT": str(free_port()), "MNESIA_BASE": str(folder / "mnesia"), "LOG_BASE": str(folder / "logs"), "PID_FILE": str(folder / "pid"),
                "ENABLED_PLUGINS_FILE": str(folder / "plugins"), "CONFIG_FILE": str(folder / "conf")}
        env = {**os.environ, "HOME": str(folder), "ERL_EPMD_PORT": str(names[1]), "ERL_EPMD_ADDRESS": names[0], **{f"RABBITMQ_{name}": value for name, value in more.items()}}
        try:
            self.program = within(folder, [found("rabbitmq-server", *self.PLACES)], self.at, env=env, start_new_session=True)
        except NotUp:
            self.names.kill()
            raise
        self.connect()

    def connect(self):
        self.end = socket.create_connection(self.at)
        self.end.setsockopt(socket.IPPROTO_TCP, socket.TCP_NODELAY, 1)
        self.bytes, self.confirmed, self.sent = self.end.makefile("rb"), 0, 0
        self.end.sendall(b"AMQP\0\0\x09\1")
        self.wait(10, 10)
        self.call(0, 10, 11, b"\0\0\0\0\x05PLAIN" + self.long(b"\0guest\0guest") + b"\x05en_US")
        self.wait(10, 30)
        self.call(0, 10, 31, struct.pack(">HIH", 1, 131072, 0))
        self.call(0, 10, 40, b"\1/\0\0")
        self.wait(10, 41)
        for answer, method in ((11, (20, 10, b"\0")), (11, (50, 10, b"\0\0\6orders\2" + b"\0" * 4)), (11, (85, 10, b"\0"))):
            self.call(1, *method)
            self.wait(method[0], answer)

    def second(self):
        other = object.__new__(RabbitMQ)
        other.at = self.at
        other.connect()
        return other

    def long(self, text):
        return struct.pack(">I", len(text)) + text

    def frame(self, kind, channel, text):
        return struct.pack(">BHI", kind, channel, len(text)) + text + b"\xce"

    def call(self, channel, kind, method, more):
        self.end.sendall(self.frame(1, channel, struct.pack(">HH", kind, method) + more))

    def next(self):
        """The kind and the text of the next frame."""
        kind, _, size = struct.unpack(">BHI", self.bytes.read(7))
        return kind, self.bytes.read(size + 1)[:-1]

    def wait(self, *methods):
        """The next method but for confirms, which are counted; it is one of a class and a number."""
        while True:
            kind, text = self.next()
            if kind != 1:
                continue
            if text[:4] == b"\0\x3c\0\x50":  # confirmed up to this one, or this one
                tag, many = struct.unpack(">QB", text[4:13])
                self.confirmed = max(self.confirmed, tag) if many else self.confirmed + 1
                if methods == ("confirm",):
                    return text
                continue
            found = struct.unpack(">HH", text[:4])
            assert found[0] == methods[0] and found[1] in methods[1:], (found, text)
            return text

    def publish(self):
        head = struct.pack(">HHQH", 60, 0, len(BODY), 0x1000) + b"\2"  # of two marks of delivery the one of the disk
        self.sent += 1
        return self.frame(1, 1, b"\0\x3c\0\x28\0\0\0\6orders\0") + self.frame(2, 1, head) + self.frame(3, 1, BODY.encode())

    def put(self, count=1):
        self.end.sendall(b"".join(self.publish() for _ in range(count)))
        acked = 0
        while acked < count:
            text = self.wait("confirm")
            tag, many = struct.unpack(">QB", text[4:13])
            acked = acked + 1 if not many else count - (self.sent - tag)

    def put64(self):
        self.put(64)

    def take(self):
        self.call(1, 60, 70, b"\0\0\6orders\0")
        text = self.wait(60, 71, 72)
        if text[:4] == b"\0\x3c\0\x48":
            return False
        while self.next()[0] != 3:
            pass
        self.call(1, 60, 80, text[4:12] + b"\0")
        return True

    def close(self):
        os.killpg(self.program.pid, signal.SIGKILL)
        self.program.wait()
        self.names.kill()
        self.names.wait()


SYSTEMS = {
    "the disk, one sync": lambda folder: Raw(folder, 1), "the disk, two syncs": lambda folder: Raw(folder, 2), "mqb": Shell, "SQLite": SQLite, "beanstalkd": Beanstalkd, "Redis": Redis, "PostgreSQL": PostgreSQL,
    "RabbitMQ": RabbitMQ}
PROGRAMS = {"beanstalkd": ("beanstalkd", []), "Redis": ("redis-server", []), "PostgreSQL": ("postgres", PostgreSQL.PLACES), "RabbitMQ": ("rabbitmq-server", RabbitMQ.PLACES)}


def flight(it):
    def act():
        it.put()
        it.take()
    return rate(act)


def pair(it):
    """Messages a second that a consumer takes beside a producer."""
    if hasattr(it, "pair"):
        return it.pair()
    producer, ended = it.second(), threading.Event()

    def produce():
        while not ended.is_set():
            producer.put()
    putting = threading.Thread(target=produce)
    putting.start()

    def act():
        while not it.take():
            pass
    try:
        return rate(act)
    finally:
        ended.set()
        putting.join()


CELLS = {"put": lambda it: rate(it.put), "64": lambda it: rate(it.put64, 64), "pair": pair, "flight": flight}


def tried(name, cell):
    with folder() as place:
        (here := pathlib.Path(place) / "files").mkdir()
        it = SYSTEMS[name](here)
        try:
            return CELLS[cell](it)
        finally:
            it.close()


def has(name, cell):
    raw = name.startswith("the disk")
    return not (raw and cell in ("pair", "flight") or name == "beanstalkd" and cell == "64")


def main():
    if "LD_PRELOAD" not in os.environ and DELAY != "0":
        with folder() as place:
            library = f"{place}/delayed.so"
            pathlib.Path(place).chmod(0o755)  # PostgreSQL runs as another user
            subprocess.run(["cc", "-shared", "-fPIC", "-O2", "-Wall", "-o", library, TOP / "bench/delayed.c", "-ldl"], check=True)
            raise SystemExit(subprocess.run([sys.executable, *sys.argv], env={**os.environ, "LD_PRELOAD": library, "DELAYED_SYNC": DELAY}).returncode)
    names = [name for name in SYSTEMS if (name not in PROGRAMS or found(PROGRAMS[name][0], *PROGRAMS[name][1])) and (ONLY == [""] or name in ONLY or name.startswith("the disk"))]
    best = collections.defaultdict(float)
    for _ in range(3):
        for cell in CELLS:
            for name in [name for name in names if has(name, cell)]:
                try:
                    best[name, cell] = max(best[name, cell], tried(name, cell))
                except NotUp as why:
                    print(why, file=sys.stderr)
                    names.remove(name)
    print(f"{'':20}" + "".join(f"{cell:>24}" for cell in CELLS))
    for name in names:
        line = f"{name:20}"
        for cell in CELLS:
            one, two = (best[f"the disk, {syncs}", "64" if cell == "64" else "put"] for syncs in ("one sync", "two syncs"))
            rated = best.get((name, cell))
            line += f"{rated:10.0f} {rated / one * 100:6.0f} {rated / two * 100:6.0f}" if rated else f"{'-':>24}"
        print(line)
    print(f"messages a second, in hundredths of the raw loop of one sync, and of that of two; each sync waits {DELAY} microseconds besides")


if __name__ == "__main__":
    main()
