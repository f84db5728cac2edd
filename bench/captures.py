#!/usr/bin/env python3
"""captures.py [COUNT [LARGE]]: what the inspector says of captures that were made, and how long it takes for great ones.

COUNT captures (20) of `push` to `serve`, of either end in turn, by the recorder of record.py; half of the connections are lost, at a packet drawn by lot, some of them within it. Each has to be
`lawful`, or `cut` where bytes of a packet are left. Then one packet of each is changed, in all these ways: a number of the session header of each packet that was sent (`stamp` at its index), the
link of each message to its own number (`link`), each signature (`bad`). KEEP names a folder for the captures.

LARGE is the size in bytes of captures that are sent to the inspector and held nowhere (1,073,741,823; 0: none): one sequence in the order of its numbers, a sequence for each packet, one sequence
with falling numbers, as may be heard, and one number again and again. Its processor time for each is to be at most three times that for the first, and it is said how much memory it took for a byte.

Seen, by the built inspector, on a machine with some ten other programs running: of 20 captures 12 were lawful and 8 cut, and each of 1,473 changes was told as wanted. Of 1,073,741,657 bytes in
5,237,758 packets: 244 s in order; 1.14 times that for a sequence a packet, 1.02 for falling numbers, 0.88 for one number again and again; 3.7 to 4.3 bytes of memory a byte.

The status is 1 where something was otherwise. It stands outside the gate. INSPECT names another inspector than `./mqb --where inspect` does. Ports 1801, or MQB_PORT, and the next one must be free.
"""
import os, pathlib, random, select, socket, struct, subprocess, sys, time
from managers import GUIDS, MQB, OTHER, PORT, Ends, asked, folder, is_listening, send
from record import HEARD, SENT, Recorder, capture_of, head, pieces, wire

COUNT = int(sys.argv[1]) if len(sys.argv) > 1 else 20
LARGE = int(sys.argv[2]) if len(sys.argv) > 2 else 1_073_741_823
SEED = int(os.environ.get("SEED", time.time()))
TOP = pathlib.Path(__file__).resolve().parent.parent
INSPECT = os.environ.get("INSPECT") or subprocess.check_output([TOP / "mqb", "--where", "inspect"], text=True).strip()
TIMES = 3  # as long as one in order
HEADER = {"acknowledged": -16, "stored": -14, "flags": -12, "number": -8, "recoverable": -6, "window": -4}  # where the numbers of a session header stand, from the end of its packet
wrong = []


def inspected(capture):
    """The words of the inspector's line."""
    return subprocess.run([INSPECT, "inspect"], input=capture, capture_output=True).stdout.decode().split()


def want(said, *words):
    if said[:len(words)] != list(words):
        wrong.append((said, words))
        print("WRONG", "said", *said, "and not", *words, flush=True)


# Packets.

def flags_of(packet):
    return packet[2]


def has_session(packet):
    return bool(flags_of(packet) & 16)


def is_internal(packet):
    return bool(flags_of(packet) & 8)


def link_at(packet):
    """Where the transaction header of a packet has its number, or None."""
    if is_internal(packet):
        return None
    flags, at = int.from_bytes(packet[60:64], "little"), 64
    if not flags & 2:
        return None
    for kind in (flags >> 2 & 7, flags >> 5 & 7, flags >> 8 & 7):
        at += {0: 0, 1: 16, 2: 20, 3: 2 + 2 * int.from_bytes(packet[at:at + 2], "little")}[kind]
    return at + -at % 4 + 12


def changed(packet, at, value):
    at %= len(packet)
    return packet[:at] + value + packet[at + len(value):]


def changes(events):
    """Each change of one packet: its index, the packet, and the first words of the cause."""
    for index, (way, packet) in enumerate(events):
        yield index, changed(packet, 4, bytes([packet[4] ^ 1])), ["bad", "4", "signature"]
        if way == SENT and has_session(packet):
            for at in HEADER.values():
                yield index, changed(packet, at, bytes([packet[at] ^ 1])), ["stamp"]
        if (at := link_at(packet)) is not None:
            yield index, changed(packet, at + 4, packet[at:at + 4]), ["link"]


# Connections.

def listening(process, port):
    while not is_listening(port):
        assert process.poll() is None, "nobody listens"
        time.sleep(0.002)


WAITING = {"0", "7", "23", "45", "232", "270", "271", "281"}  # the calls of Linux in which a program waits for what comes: read, poll, select, recvfrom, epoll_wait and their like


def waits(process):
    """Whether a program waits for what comes. One that was given a packet does not, until it has answered it, however busy the machine is."""
    try:
        state = pathlib.Path(f"/proc/{process.pid}/stat").read_text().rpartition(")")[2].split()[0]
        return state in "SZ" and (state == "Z" or pathlib.Path(f"/proc/{process.pid}/syscall").read_text().split()[0] in WAITING)
    except OSError:
        return True


def quiet_as(process):
    """Says whether an end is quiet: its program was seen waiting, and nothing came from it."""
    def is_quiet(end):
        while not select.select([end], [], [], 0.005)[0]:
            if waits(process) and not select.select([end], [], [], 0.005)[0] and waits(process):
                return True
        return False
    return is_quiet


def recorded(stores, pusher, captured, loses):
    """One push through a recorder, and the events of the captured end."""
    serving = subprocess.Popen([MQB, "serve", stores[OTHER[pusher]], "1"], stdout=subprocess.DEVNULL, stderr=subprocess.DEVNULL, env={**os.environ, "MQB_PORT": str(PORT + 1)})
    listening(serving, PORT + 1)
    with socket.create_server(("127.0.0.1", PORT)) as server:
        pushing = subprocess.Popen([MQB, "push", stores[pusher], OTHER[pusher]], stdout=subprocess.DEVNULL, stderr=subprocess.DEVNULL, env={**os.environ, "MQB_PORT": str(PORT)})
        dialling, _ = server.accept()
    dialled = socket.create_connection(("127.0.0.1", PORT + 1))
    ends, process = ((dialling, dialled), pushing) if captured == pusher else ((dialled, dialling), serving)
    events = Recorder(*ends, loses, quiet_as(process)).run()
    pushing.wait(), serving.wait()
    return events


def made(lot):
    """COUNT captures, of a connection that went on or one that was lost, of either end."""
    with folder() as at:
        ends = Ends(at)
        for number in range(COUNT):
            ends.commit("alpha", lot.randrange(1, 9))
            if number % 3 == 0:
                ends.commit("beta", lot.randrange(1, 4))
            captured, lost_at = ("alpha", "beta")[number % 2], lot.randrange(1, 9) if number % 4 > 1 else None
            loses = lambda count, packet: lot.choice([0, 1, lot.randrange(len(packet))]) if lost_at is not None and count >= lost_at else None
            events = recorded(ends.stores, "alpha", captured, loses)
            end = "initiator" if captured == "alpha" else "acceptor"
            yield number, end, captured, events, lost_at is not None


def small(lot):
    causes = {"lawful": 0, "cut": 0, "changed": 0}
    for number, end, own, events, lost in made(lot):
        of = lambda events: capture_of(end, GUIDS[own], GUIDS[OTHER[own]], events)
        if os.environ.get("KEEP"):
            pathlib.Path(os.environ["KEEP"], f"{number}.capture").write_bytes(of(events))
        said = inspected(of(events))
        whole = events if not lost or not events or len(events[-1][1]) == int.from_bytes(events[-1][1][8:12], "little") else events[:-1]
        if whole == events:
            want(said, "lawful", str(sum(way == SENT for way, _ in events)), str(sum(way == HEARD for way, _ in events)))
        else:
            want(said, "broken", str(len(whole)), "cut")
        causes["lawful" if whole == events else "cut"] += 1
        for index, packet, cause in changes(whole):
            want(inspected(of(whole[:index] + [(whole[index][0], packet)] + whole[index + 1:])), "broken", str(index), *cause)
            causes["changed"] += 1
    print(f"{COUNT} captures: {causes['lawful']} lawful, {causes['cut']} cut; {causes['changed']} with a packet changed", flush=True)


# Great captures: an acceptor that hears messages out of order, which its session does not count.

def set_up():
    """The pieces by which a session of alpha and beta is set up, as beta has it."""
    base = lambda flags, size: bytes([0x10, 0, flags, 0]) + b"LIOR" + size.to_bytes(4, "little") + b"\xff" * 4
    establish = base(8, 572) + bytes([2, 0, 0, 0]) + wire(GUIDS["alpha"]) + wire(GUIDS["beta"]) + bytes(8) + b"Z" * 512
    parameters = base(8, 32) + bytes([3, 0, 0, 0]) + (10000).to_bytes(4, "little") + (20000).to_bytes(4, "little") + bytes([0, 0, 64, 0])
    return b"".join(pieces(way, packet) for packet in (establish, parameters) for way in (HEARD, SENT))


def message_around():
    """A message of alpha's to a queue of beta, in a piece, cut where its place in a sequence stands. It takes no number of the session."""
    name = "OS:beta\\PRIVATE$\\o".encode("utf-16-le")
    user = wire(GUIDS["alpha"]) + wire(GUIDS["beta"]) + b"\xff" * 4 + bytes(4) + bytes([1, 0, 0, 0]) + (3 << 2 | 3).to_bytes(4, "little") + (len(name) // 2).to_bytes(2, "little") + name
    user += bytes(-len(user) % 4)
    props = bytes(32) + bytes([1, 0, 0, 0]) * 2 + bytes(16) + b"x" + bytes(3)
    session = bytes(12) + bytes([64, 0, 0, 0])
    size = 16 + len(user) + 20 + len(props) + len(session)
    front = bytes([0x10, 0, 16, 0]) + b"LIOR" + size.to_bytes(4, "little") + b"\xff" * 4 + user
    return bytes([HEARD]) + size.to_bytes(4, "little") + front, props + session


FRONT, BACK = message_around()


def message(ordinal, number, previous):
    return FRONT + struct.pack("<5I", 0, ordinal, 0, number, previous) + BACK


ORDERS = {
    "in order": lambda at, count: (1, at + 1, at),
    "a sequence a packet": lambda at, count: (at + 1, 1, 0),
    "falling": lambda at, count: (1, count - at, count - at - 1),
    "one number": lambda at, count: (1, 1, 0),
}


def great(order):
    """A capture of at most LARGE bytes, piece by piece."""
    begin = head("acceptor", GUIDS["beta"], GUIDS["alpha"]) + set_up()
    count = (LARGE - len(begin)) // len(message(1, 1, 0))
    yield begin, 0
    at = 0
    while at < count:
        many = min(4096, count - at)
        yield b"".join(message(*ORDERS[order](at + each, count)) for each in range(many)), many
        at += many


def took(order):
    """The words of the inspector, its processor time in seconds, the greatest memory that it had in bytes, and what it was given: bytes and messages."""
    child = subprocess.Popen([INSPECT, "inspect"], stdin=subprocess.PIPE, stdout=subprocess.PIPE)
    size = messages = 0
    for data, many in great(order):
        child.stdin.write(data)
        size, messages = size + len(data), messages + many
    child.stdin.close()
    said = child.stdout.read().decode().split()
    _, _, used = os.wait4(child.pid, 0)
    return said, used.ru_utime + used.ru_stime, used.ru_maxrss * 1024, size, messages


def large():
    first = None
    for order in ORDERS:
        said, seconds, memory, size, messages = took(order)
        first = first or seconds
        want(said, "lawful", "2", str(messages + 2))
        print(f"{order}: {size:,} bytes, {messages:,} messages: {seconds:.1f} s, {seconds / first:.2f} of that in order; {memory:,} bytes of memory, {memory / size:.2f} a byte", flush=True)
        if seconds > TIMES * first:
            wrong.append(order)


lot = random.Random(SEED)
print("seed", SEED)
small(lot)
if LARGE:
    large()
sys.exit(bool(wrong))
