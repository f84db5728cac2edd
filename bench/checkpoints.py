#!/usr/bin/env python3
"""checkpoints.py [RECORDS [MESSAGES]]: what a checkpoint costs and what it gives, at a store of RECORDS records (100,000) which leave no message, and at one with a tenth as many
messages, all there: the processor time of `list` before it and behind it, and of itself, and how long the file is. Then how great a state may be: a base of exactly
1,073,741,824 bytes is written, and of four bytes more, and of MESSAGES messages (270) of 4,194,000 bytes, none: `toolarge`, and the file is what it was.

The first checkpoint leaves the records in the file, before the head, for good. A further one must leave no more behind the head than the area that was in use with the records behind it,
and twice the new area. Where no message is left `list` is to be twenty times quicker behind the checkpoints; else the status is 1.

Seen, by the released program whose sum begins with 099e2b06, on a busy machine: of 100,000 records without a message, a file of 15,450,099 bytes, `list` took 284 ms, and 6.4 behind the first checkpoint, which took 286 and made the file 147 bytes
longer; 10,000 messages, a file of 2,740,099 bytes, took 50 ms, and 28 behind it, with files of 5,390,358, 8,040,475 and again 5,390,358 bytes. A base of 1,073,741,824 bytes took 9 s; one of four bytes more, and 270 messages, were `toolarge`.

The records are those of one message that the program sent and took, written again with other numbers, which `list` and the number of the next message show to be right. What is
too large takes some 4,000,000,000 bytes of memory and as many in FOLDER; MESSAGES 0 leaves it out. It stands outside the gate. MQB names another program than `./mqb --where` does.
"""
import hashlib, itertools, os, resource, shutil, sys, time
from managers import HEAD, MQB, asked, based, folder, ids_of, mqb, send

RECORDS = int(sys.argv[1]) if len(sys.argv) > 1 else 100_000
MESSAGES = int(sys.argv[2]) if len(sys.argv) > 2 else 270
QUICKER = 20
MAX_BASE = 1_073_741_824
BIG = 4_194_000  # bytes of a body whose packet has not quite 4,194,304
ALPHA = ("alpha", "0a0b0c0d-0e0f-1011-1213-141516171819", "127.0.0.1")
GATE, NUMBER = 1, 70  # bytes of a gate; where a record of a message, with its gate in front, has the message's number
AROUND = 13  # bytes of an area and its gate that are not its base


def added(store, word, *words):
    """The record that a command adds, with the gate in front of it."""
    before = os.path.getsize(store)
    asked(word, store, *words)
    with open(store, "rb") as file:
        file.seek(before - GATE)
        return file.read()[:-GATE]


def sent(store, body):
    """The record of a message that is put into the queue `notes`."""
    return added(store, "send", "recoverable", "3", send(".", "notes", body))


def numbered(record, at, number):
    return record[:at] + number.to_bytes(4, "little") + record[at:][4:]


def number_in(record, at):
    return int.from_bytes(record[at:][:4], "little")


def made(name, letters=1):
    """A store of alpha with the queue `notes`, and one whose name has so many letters."""
    store = f"{name}/alpha.store"
    if os.path.exists(store):
        os.unlink(store)
    asked("init", store, *ALPHA)
    asked("create", store, "notes", "plain", "4000000", "none")
    asked("create", store, "x" * letters, "plain", "1", "none")
    return store


def write_behind(store, records):
    """Adds records to a store that has no base."""
    with open(store, "r+b") as file:
        file.seek(-GATE, os.SEEK_END)
        for record in records:
            file.write(record)
        file.write(b"\0")


def passed(name):
    """A store of RECORDS records: each message was sent and then taken."""
    store = made(name)
    put, gone = sent(store, "x" * 100), added(store, "take", "notes")
    assert number_in(put, NUMBER) == number_in(gone, -4) == 1
    write_behind(store, (part for number in range(2, RECORDS // 2 + 1) for part in (numbered(put, NUMBER, number), numbered(gone, len(gone) - 4, number))))
    return store, RECORDS // 2, 0


def kept(name):
    """A store of a tenth as many messages, which are all there."""
    store, count = made(name), RECORDS // 10
    put = sent(store, "x" * 100)
    write_behind(store, (numbered(put, NUMBER, number) for number in range(2, count + 1)))
    return store, count, count


def cost(*words):
    """The processor seconds of a command, and what it says."""
    before = resource.getrusage(resource.RUSAGE_CHILDREN)
    said = asked(*words)
    behind = resource.getrusage(resource.RUSAGE_CHILDREN)
    return behind.ru_utime + behind.ru_stime - before.ru_utime - before.ru_stime, said


def listed(store):
    """What `list` costs, the least of five, and what it says."""
    runs = [cost("list", store) for _ in range(5)]
    return min(seconds for seconds, _ in runs), runs[0][1]


def checkpointed(store):
    """What a checkpoint costs; a further one keeps to its bound."""
    was, size = based(store), os.path.getsize(store)
    took, said = cost("checkpoint", store)
    assert said == ["ok"]
    lies = based(store)
    assert os.path.getsize(store) == lies.place + lies.size, "the file ends behind the new area"
    assert not was or os.path.getsize(store) <= was.head + HEAD + size - was.place + 2 * lies.size, "the file is longer than it may be"
    return took


def measure(name, make, what):
    """Says what three checkpoints cost at a store, and whether `list` is so much quicker behind them."""
    store, last, there = make(name)
    before, lines = listed(store)
    assert len(ids_of(lines)["notes"]) == there, lines[:1]
    print(f"{what}: a list {before * 1000:.0f} ms, a file of {os.path.getsize(store):,} bytes", flush=True)
    for which in ("first", "second", "third"):
        took = checkpointed(store)
        behind, again = listed(store)
        assert again == lines, "a checkpoint changed something"
        print(f"  behind the {which} checkpoint, of {took * 1000:.0f} ms: a list {behind * 1000:.1f} ms, {before / behind:.1f} times quicker, a file of {os.path.getsize(store):,} bytes", flush=True)
    assert asked("send", store, "recoverable", "3", send(".", "notes"))[0].startswith(f"sent alpha.{last + 1} ")
    return before >= QUICKER * behind


def digest(store):
    with open(store, "rb") as file:
        return hashlib.file_digest(file, "sha256").hexdigest()


def heavy(name, count, letters, body):
    """A store of so many messages of BIG bytes, and one of so many behind them, or none."""
    store = made(name, letters)
    shutil.copyfile(store, f"{name}/sample")
    big, last = sent(f"{name}/sample", f"*{BIG}"), sent(f"{name}/sample", f"*{body}")
    os.unlink(f"{name}/sample")
    write_behind(store, (numbered(*one) for one in itertools.chain(((big, NUMBER, number) for number in range(1, count + 1)), [(last, NUMBER, count + 1)] * (body > 0))))
    return store


def base_of(name, letters, *bodies):
    """How many bytes the base of a store with such a queue has, and how many each message of such a body adds to it."""
    store = made(name, letters)
    asked("checkpoint", store)
    sizes = [based(store).size - AROUND]
    for body in bodies:
        asked("send", store, "recoverable", "3", send(".", "notes", f"*{body}"))
        asked("checkpoint", store)
        sizes.append(based(store).size - AROUND)
    return sizes[0], [more - less for less, more in zip(sizes, sizes[1:])]


def largest(name):
    """How many messages of BIG bytes, how many letters of a name, and what body behind them make a base of exactly as many bytes as one may have."""
    base, (big, small) = base_of(name, 1, BIG, 4)
    count = (MAX_BASE - base - small) // big
    left = MAX_BASE - base - count * big
    letters, body = 1 + (left - small) % 4, 4 + (left - small) // 4 * 4
    assert left == small + letters - 1 + body - 4 and base_of(name, letters, body) == (base + letters - 1, [small + body - 4])
    return count, letters, body


def refused(store):
    """A checkpoint that is too large leaves the file byte for byte."""
    lines, was = asked("list", store), digest(store)
    done = mqb("checkpoint", store)
    assert (done.returncode, done.stdout) == (11, "toolarge\n"), (done.returncode, done.stdout)
    assert digest(store) == was and asked("list", store) == lines


def weigh(name):
    """Writes a base that is as large as one may be, and none that is larger."""
    count, letters, body = largest(name)
    store = heavy(name, count, letters, body)
    lines = asked("list", store)
    began = time.time()
    checkpointed(store)
    took = time.time() - began
    assert based(store).size - AROUND == MAX_BASE and asked("list", store) == lines
    print(f"a base of {MAX_BASE:,} bytes, {count} messages of {BIG:,} and one of {body:,}: ok, in {took:.0f} s", flush=True)
    refused(heavy(name, count, letters, body + 4))
    print("a base of four bytes more: toolarge, and the file is the same", flush=True)
    refused(heavy(name, MESSAGES, letters, 0))
    print(f"{MESSAGES} messages of {BIG:,}: toolarge, and the file is the same", flush=True)


def main():
    print(MQB, flush=True)
    with folder() as name:
        is_quick = measure(name, passed, f"{RECORDS:,} records that leave no message")
        measure(name, kept, f"{RECORDS // 10:,} messages that are there")
        if MESSAGES:
            weigh(name)
    sys.exit(0 if is_quick else 1)


main()
