#!/usr/bin/env python3
"""shell.py killed [KILLS]    a shell that commits, takes and checkpoints is killed KILLS times (1,000), at random moments: every answer that was read holds in the store
   shell.py drawn [LINES]     LINES drawn lines (100,000), most of them faulty, end nothing, and change nothing but by the good ones, by single commands on a copy
   shell.py long              lines of 1 to 16 million bytes that come byte by byte: the time is linear
   shell.py memory [LINES]    LINES lines (1,000,000) of commit and take in turn, of refused ones, of faulty ones, and of peeks and lists, beside a thousandth: the same memory

Seen of the proved program whose sum begins with 5c93fa77, on a machine with twice as many busy programs as processors, with the files in memory. Of 1,000 kills 987 came behind an answer: 68,935 answers were read and
hold, 92 lines were done whose answer was not read whole, each in another shell, and 12,780 were not done. Of 100,000 drawn lines 90,221 were faulty; the other 9,779 were answered as by single commands on a copy
(5,585 end 0, 4,145 end 11, 49 end 7), behind which both stores said the same. A byte of a line that comes byte by byte took 284 to 402 nanoseconds of a processor in lines of one word, and 301 to 524 in lines of
spaces, of 1 to 16 million bytes; the spaces took 289 MB of memory at most, read as they came too. The most memory of 1,000,000 lines was 9,800 to 10,036 kB, and of a thousandth of them 9,812 to 10,032.

A client of `killed` is up to WINDOW lines (20) ahead of the answers that it has read. The numbers are drawn from SEED. The files stand in FOLDER, which decides what a sync costs; MQB names another program
than `./mqb --where` does. `long` makes the library of delayed.c by the system's C compiler. It stands outside the gate, but for a few kills."""
import collections, concurrent.futures, contextlib, os, pathlib, random, re, resource, shutil, signal, subprocess, sys, threading, time
from managers import GUIDS, MQB, TOP, asked, folder, mqb, send

SEED = int(os.environ.get("SEED", "1"))
WINDOW = int(os.environ.get("WINDOW", "20"))
END = re.compile(rb"end (\d+)\n")
ORDERS = r"send,DIRECT=OS:alpha\PRIVATE$\orders,-,-,-,-,-,"


def made(name, *more):
    """The path of a store of alpha with the queues orders and notes."""
    store = f"{name}/alpha.store"
    asked("init", store, "alpha", GUIDS["alpha"], "127.0.0.1")
    asked("create", store, "orders", "tx", "4000000000", "none")
    asked("create", store, "notes", "plain", "4000000000", "none")
    return store


def shell(store, **more):
    return subprocess.Popen([MQB, "shell", store], stdin=subprocess.PIPE, stdout=subprocess.PIPE, stderr=subprocess.DEVNULL, **more)


def answers_of(output):
    """The answers of what a shell wrote, each with its lines and its end, up to the last that is whole; and what is behind that."""
    answer = []
    for line in output:
        answer.append(line)
        if END.fullmatch(line):
            yield b"".join(answer)
            answer = []
    yield b"".join(answer)


class Script:
    """The lines of a shell that commits and takes, with the answer to each and what the queue holds behind it, which tells how many were sent and taken: it is never empty. The lines repeat, and put as many as they take."""
    LINES = ("commit 1", "take", "commit 3", "", "take", "commit take 1 take", "take other", "commit 1", "commit take", "take", "commit take 2 take")
    FIRST = 20  # messages that are there

    def __init__(self):
        self.number, self.made, self.queue = 0, self.FIRST, collections.deque((at, f"body{at}") for at in range(1, self.FIRST + 1))

    def step(self):
        """The next line, and its answer."""
        words = self.LINES[self.number % len(self.LINES)].split(" ") if self.number % 150 else ["checkpoint"]
        self.number += 1
        return getattr(self, words[0] or "nothing")(*words[1:])

    def nothing(self):
        return "", "fault: usage\nend 2\n"

    def checkpoint(self):
        return "checkpoint", "ok\nend 0\n"

    def taken(self):
        number, body = self.queue.popleft()
        return f"took alpha.{number}", f"body {body.encode().hex()}\n"

    def take(self, place="orders"):
        if place != "orders":
            return f"take {place}", "noqueue\nend 11\n"
        took, body = self.taken()
        return "take orders", f"{took} [{took}]\n{body}end 0\n"

    def commit(self, *ops):
        line, taken, sent, bodies, more = "commit", "", "", "", []
        for op in ops:
            if op == "take":
                took, body = self.taken()
                line, taken, bodies = f"{line} take,orders", f"{taken} [{took}]", bodies + body
                continue
            for _ in range(int(op)):
                self.made += 1
                more.append((self.made, f"body{self.made}"))
                line, sent = f"{line} {ORDERS}body{self.made}", f"{sent} [local alpha.{self.made}]"
        self.queue += more
        return line, f"committed{taken}{sent}\n{bodies}end 0\n"

    def held(self):
        return [f"alpha.{number}" for number, _ in self.queue]


def queue_of(store):
    said = mqb("peek", store, "orders", "4294967295")
    assert said.returncode in (0, 11), said
    return [line.split()[0] for line in said.stdout.splitlines()] if said.returncode == 0 else []


def outlived(store, script, draw):
    """A shell over the store that is killed. Says how many answers were read, how many further lines were done, and how many were not; the script is then behind what was done."""
    ready, states, wanted = threading.Semaphore(WINDOW), [script.held()], []
    program = shell(store)

    def write():
        try:
            while True:
                ready.acquire()
                line, answer = script.step()
                states.append(script.held())
                wanted.append(answer.encode())
                program.stdin.write(line.encode() + b"\n")
                program.stdin.flush()
        except (BrokenPipeError, ValueError):
            pass

    writing, left, read = threading.Thread(target=write), draw.randrange(60), []
    writing.start()
    if left == 0:  # it is about to open the store
        threading.Timer(draw.uniform(0, 0.01), program.kill).start()
    for answer in answers_of(program.stdout):
        read.append(answer)
        left -= 1
        if left == 0:
            threading.Timer(draw.uniform(0, 0.002), program.kill).start()
        ready.release()
    rest = read.pop()
    assert program.wait() == -signal.SIGKILL, program.returncode
    ready.release()
    writing.join()
    with contextlib.suppress(BrokenPipeError):
        program.stdin.close()
    assert read == wanted[:len(read)], [(came, want) for came, want in zip(read, wanted) if came != want][:1]
    assert not rest or wanted[len(read)].startswith(rest), (rest, wanted[len(read)])
    return read, states


def killed(kills):
    draw, script, counts = random.Random(SEED), Script(), collections.Counter()
    with folder() as name:
        store = made(name)
        asked("commit", store, *(send("alpha", "orders", body) for _, body in script.queue))
        for _ in range(kills):
            begun = Script()
            begun.number, begun.made, begun.queue = script.number, script.made, collections.deque(script.queue)
            read, states = outlived(store, script, draw)
            held = queue_of(store)
            done = next((at for at in range(len(read), len(states)) if states[at] == held), None)
            assert done is not None, (len(read), held, states[len(read):])
            for _ in range(done):
                begun.step()
            script = begun
            counts["read"] += len(read)
            counts["done and not read"] += done - len(read)
            counts["not done"] += len(states) - 1 - done
            counts["kills behind an answer"] += bool(read)
            counts["kills with a line done and not read"] += done > len(read)
    print(f"every answer that was read holds: {kills} kills")
    print(", ".join(f"{count} {name}" for name, count in counts.items()), file=sys.stderr)


GOOD = [  # lines that a command line asks for, too
    "list", "tick", "take orders", "take notes", "take notes;journal", "take ;deadletter", "peek orders", "peek notes 3", "purge notes", "purge orders", "roll 100", "checkpoint", "commit take,orders",
    f"commit {ORDERS}one", f"commit {ORDERS}one {ORDERS}two", f"commit take,orders {ORDERS}three", r"send recoverable 3 send,DIRECT=OS:.\PRIVATE$\notes,-,-,-,-,-,four",
    r"send recoverable 0 send,DIRECT=OS:alpha\PRIVATE$\notes,-,-,d,-,-,*200", r"commit send,DIRECT=OS:beta\PRIVATE$\orders,-,-,dj,-,-,five", r"send recoverable 7 send,DIRECT=OS:beta\PRIVATE$\notes,-,-,-,-,-,six",
    "create more tx 3 none", "create notes plain 9 journal", "peer beta 1a1b1c1d-1e1f-2021-2223-242526272829 255.255.255.255", "peer gamma 3a3b3c3d-3e3f-4041-4243-444546474849 255.255.255.255"]
CALLS = ["push beta", "push nobody", "fetch beta 1", "fetch nobody"]  # they end at once, since nobody can be reached at that address
OTHERS = ["init alpha 0a0b0c0d-0e0f-1011-1213-141516171819 127.0.0.1", "probe", "shell", "show", "replay", "make 3", "trial 3", "--help", "--version", "serve 0", "serve", "attend 0", "attend x", "end 0", ""]


def changed(draw, line):
    """A line that is a little different, and faulty most often."""
    words, at = line.split(b" "), draw.randrange(len(line) + 1)
    byte = bytes([draw.choice([at for at in range(256) if at != 10])])
    return draw.choice([
        line[:at] + byte + line[at:], line[:at] + line[at + 1:], line[:at] + byte + line[at + 1:], line[:at], line[at:], line[:at] + b" " + line[at:], b"#" + line, line + b"\r", line + b" " + draw.choice(words),
        b" ".join(draw.sample(words, len(words))), b" ".join(words[:-1]), line.upper(), line + b" " + line, draw.randbytes(draw.randrange(40)).replace(b"\n", b"")])


def drawn_line(draw):
    kind = draw.random()
    if kind < 0.02:
        return draw.choice(GOOD).encode()
    if kind < 0.021:
        return draw.choice(CALLS).encode()
    line = changed(draw, draw.choice(GOOD if kind < 0.8 else OTHERS).encode())
    # none waits for a peer, or reaches out to another machine, or is held in memory alone
    return b" " + line if re.match(rb"(serve|attend|push|fetch|peer|send express)\b", line) else line


def alone(line, store):
    """The answer of a single command, or None where a line is none: its words cannot be given, or its command is of no open store."""
    words = line.split(b" ")
    if b"\0" in line or words[0] in (b"init", b"probe", b"shell") or max(map(len, words)) > 100_000:
        return None
    done = subprocess.run([MQB, words[0], store, *words[1:]], stdin=subprocess.DEVNULL, stdout=subprocess.PIPE, stderr=subprocess.DEVNULL)
    return done.stdout + b"end %d\n" % done.returncode


FAULTY = b"fault: usage\nend 2\n"


def drawn(count):
    draw = random.Random(SEED)
    lines = [drawn_line(draw) for _ in range(count)]
    lines[count // 2] = b"x" * 16_777_217
    with folder() as name:
        store, copy = made(name), f"{name}/copy.store"
        shutil.copyfile(store, copy)
        (input := pathlib.Path(name) / "lines").write_bytes(b"".join(line + b"\n" for line in lines))
        done = subprocess.run([MQB, "shell", store], stdin=open(input), stdout=subprocess.PIPE, stderr=subprocess.DEVNULL)
        *answers, rest = answers_of(done.stdout.splitlines(keepends=True))
        assert (done.returncode, rest, len(answers)) == (0, b"", count), (done.returncode, rest, len(answers))
        assert answers[count // 2] == b"fault: toolong\nend 3\n", answers[count // 2]
        good = [at for at in range(count) if answers[at] != FAULTY and at != count // 2]
        for at in good:
            want = alone(lines[at], copy)
            assert want == answers[at], (at, lines[at], answers[at], want)
        same = [[mqb(*words[:1], path, *words[1:]).stdout for words in (["list"], *[["peek", place, "4294967295"] for place in ("orders", "notes", "notes;journal", ";deadxact", ";journal")])] for path in (store, copy)]
        assert same[0] == same[1], same
        faulty = [at for at in range(count) if answers[at] == FAULTY]
        with concurrent.futures.ThreadPoolExecutor(len(os.sched_getaffinity(0))) as pool:
            for at, want in zip(faulty, pool.map(lambda at: alone(lines[at], copy), faulty)):
                assert want in (FAULTY, None), (at, lines[at], want)
        ends = collections.Counter(END.fullmatch(answer[answer.rindex(b"end "):])[1].decode() for answer in answers)
        print(f"{count} lines, {len(good)} of them good, each answered as by a command: " + ", ".join(f"{times} end {end}" for end, times in sorted(ends.items())))


def processor():
    """The seconds of a processor that the programs have taken that ended."""
    used = resource.getrusage(resource.RUSAGE_CHILDREN)
    return used.ru_utime + used.ru_stime


def long():
    with folder() as name:
        library = f"{name}/delayed.so"
        subprocess.run(["cc", "-shared", "-fPIC", "-O2", "-Wall", "-o", library, TOP / "bench/delayed.c", "-ldl"], check=True)
        store = made(name)
        for what, line in (("one word", lambda size: b"x" * size), ("spaces", lambda size: b" " * size)):
            for size in (1 << 20, 1 << 21, 1 << 22, 1 << 23, 1 << 24):
                (input := pathlib.Path(name) / "line").write_bytes(line(size) + b"\n")
                took = []
                for piece in ("0", "1"):
                    before = processor()
                    done = subprocess.run([MQB, "shell", store], stdin=open(input), stdout=subprocess.PIPE, env={**os.environ, "LD_PRELOAD": library, "DELAYED_PIECE": piece})
                    took.append(processor() - before)
                    assert done.stdout == FAULTY, done
                print(f"{what}, {size:>10,} bytes: {took[1]:.2f} s of a processor byte by byte, {took[1] / size * 1e9:.0f} ns a byte; {took[0]:.2f} s as they come", flush=True)


def high_water(pid):
    """The most memory that a program has had, in kB."""
    return int(re.search(r"VmHWM:\s*(\d+)", pathlib.Path(f"/proc/{pid}/status").read_text())[1])


def memory(count):
    kinds = {
        "commit and take": [f"commit {ORDERS}one", "take orders"], "refused": ["take other", f"commit {ORDERS}one take,other", "take notes"],
        "faulty": ["", "list x", "# nothing", "take  orders", "x" * 100], "looks": ["list", "peek notes", "tick"]}
    for kind, lines in kinds.items():
        most = []
        for times in (max(count // 1000, 1), count):
            with folder() as name:
                program = shell(made(name))
                text, per = "".join(f"{line}\n" for line in lines * 20).encode(), 20 * len(lines)
                writing = threading.Thread(target=lambda: [program.stdin.write(text) for _ in range(-(-times // per))] and program.stdin.flush())
                began = time.perf_counter()
                writing.start()
                ends = 0
                while ends < -(-times // per) * per:
                    ends += END.fullmatch(program.stdout.readline()) is not None
                most.append(high_water(program.pid))
                took = time.perf_counter() - began
                writing.join()
                program.stdin.close()
                assert program.wait() == 0
        print(f"{kind}: {most[0]:,} kB for {max(count // 1000, 1):,} lines, {most[1]:,} kB for {count:,}, in {took:.0f} s", flush=True)


def main():
    ways = {"killed": (killed, 1000), "drawn": (drawn, 100_000), "long": (long, None), "memory": (memory, 1_000_000)}
    if len(sys.argv) < 2 or sys.argv[1] not in ways:
        raise SystemExit(__doc__)
    way, count = ways[sys.argv[1]]
    way(*[int(sys.argv[2]) if len(sys.argv) > 2 else count] * (count is not None))


main()
