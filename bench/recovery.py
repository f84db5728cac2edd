#!/usr/bin/env python3
"""recovery.py [SCRIPTS [SEED [LINES]]]: drawn scripts, each with the schedule of recovery behind it: whatever happened, both managers end with nothing for one another.

SCRIPTS drawn scripts (500) of LINES lines (120), of the seeds from SEED on (1): commits, sends and takes at both managers, small queues and small sequences, pumps, packets that come late,
twice or never, ticks, checkpoints, and disks that stop or fail in the middle of a call and are started again by each pick. Behind each both managers are started anew, and then they meet as often
as there is work: a meeting is a connection with windows of 1, five flows in turn and its end. The work is what is not acknowledged behind the starts: 3 for each message of a stream, 3 for each plain
one that was asked for, and 1 for each notice. The program counts it too: what waits in rows by their marks and the lines of what expired, and what waits outside of them by pumping all of it, in a
copy of the script, into a connection with great windows. Then one more meeting must carry its four set-up packets and nothing else.

Told are how many scripts had work, how much in all, in how many meetings something else went, and the seed of each script that was not drained; where there is one, the status is 1.

Seen, by the released program whose sum begins with 099e2b06, seeds 1 to 500: each was drained. 498 scripts had work, 16,663 in all; something else than set-up packets went in 3,061 meetings, in 20 of one script at most.

It stands outside the gate. MQB names another program than `./mqb --where` does.
"""
import collections, pathlib, random, re, subprocess, sys
from managers import MQB, OTHER, send

SCRIPTS, SEED, LINES = (int(word) for word in (sys.argv[1:] + ["500", "1", "120"][len(sys.argv) - 1:])[:3])
STAGES = 6  # in each of which it is known how many packets were sent before
NOW = 5_000  # behind every drawn moment
HOSTS = list(OTHER)
PICKS = ("old", "new", "half", "ones")
FLAGS = ("-", "d", "dj", "dpn", "pnm", "dprnm", "rm", "j")
counts = collections.Counter()


def replay(lines):
    """The replies to the lines of a script, and the lines behind `end`."""
    done = subprocess.run([MQB, "replay"], input="\n".join(lines) + "\n", capture_output=True, text=True)
    assert done.returncode == 0, (done.returncode, done.stdout[-300:], done.stderr, lines)
    replies, _, listing = done.stdout.partition("\nend\n")
    return replies.split("\n"), listing.splitlines()


def message(draw, host, queues):
    """What a send or a take of a commit of this manager says."""
    to = draw.choice((OTHER[host],) * 4 + (host,))
    parts = send(to, draw.choice(queues), "x" * draw.randrange(4), draw.choice(("-", "-", "-", "0", "40", "400"))).split(",")
    notices = rf"DIRECT=OS:{draw.choice(HOSTS)}\PRIVATE$\notes"
    parts[2:6] = draw.choice(("-", "-", "-", "0", "30", "300")), parts[3], draw.choice(FLAGS), draw.choice((notices, notices, "-"))
    return ",".join(parts)


def line(draw, now, packets):
    """One line, at this moment, behind so many packets."""
    host = draw.choice(HOSTS)
    place = draw.choice(("orders", "orders", "few", "notes", ";deadletter", ";deadxact", ";journal", "orders;journal"))
    packet = max(1, packets - draw.randrange(-3, 12))
    flags = draw.choice(("recoverable", "recoverable", "express"))
    return draw.choice((
        f"commit {host} {now} " + " ".join(message(draw, host, ("orders", "orders", "few", "none")) for _ in range(draw.randrange(1, 5))),
        f"commit {host} {now} " + " ".join([message(draw, host, ("orders", "orders", "few")), "take,orders"]),
        f"send {host} {now} {flags} {draw.randrange(8)} " + message(draw, host, ("notes", "notes", "few", "none")),
        f"send {host} {now} {flags} {draw.randrange(8)} " + message(draw, host, ("notes", "notes", "orders")),
        f"connect {host} {now} {draw.choice((1, 2, 64))} {draw.choice((1, 2, 64))}", f"connect {host} {now} 64 64",
        f"pump {host} {now}", f"pump {host} {now}", f"deliver {packet} {now}", f"deliver {packet} {now}", f"deliver {packet} {now}", f"drop {packet}",
        f"flow {host} {now}", f"flow {host} {now}", f"resend {host}", draw.choice(("disconnect", f"tick {host} {now}")),
        f"take {host} {now} {place}", draw.choice((f"purge {host} {now} {place}", f"checkpoint {host}", f"roll {host} {draw.randrange(1, 5)}")),
        f"arm {host} {draw.randrange(1, 9)} {draw.choice(('stop', 'fail'))}", f"restart {host} {draw.choice(PICKS)}", f"restart {host} {draw.choice(PICKS)}",
    ))


def drawn(draw):
    """A script."""
    lines = [f"queue {host} {rest}" for host in HOSTS for rest in ("orders tx 12 journal", "few tx 2 none", "notes plain 6 none")]
    now, packets = 1_000, 0
    for _ in range(STAGES):
        for _ in range(LINES // STAGES):
            now += draw.choice((0, 1, 1, 5, 60))
            lines.append(line(draw, now, packets))
        packets = max((int(number) for reply in replay(lines)[0] for number in packets_in(reply)), default=0)
    return lines


def packets_in(reply):
    """The packets that a reply says were sent."""
    return re.findall(r"\d+", re.sub(r"^\d+ ", "", reply)) if re.match(r"\d+ (pumped|connected)", reply) else re.findall(r" (\d+):", reply) if " flowed" in reply else []


def plain(lines, host, ordinary):
    """The work of what waits at a manager outside of its streams: all of it is pumped into one connection, and what came is counted."""
    lines = lines + [f"connect {host} {NOW} 65535 65535"]
    begun = len(lines)
    sent = []
    while True:
        lines = lines + [f"pump {host} {NOW}"] * 8
        replies, _ = replay(lines)
        sent = [number for reply in replies[begun:] for number in packets_in(reply)]
        if not packets_in(replies[-1]):
            break
    replies, _ = replay(lines + [f"deliver {number} {NOW}" for number in sent])
    heard = [reply for reply in replies[len(lines):] if re.match(r"\d+ (stored|bounced|final)", reply)]
    return sum(3 if name in ordinary else 1 for reply in heard for name in re.findall(r"\[(?:stored|bounced \w+) (\S+?)\]", reply)[:1])


def work(lines):
    """How much two managers that were just started have for one another."""
    replies, listing = replay(lines)
    text = "\n".join(replies)
    rows = {(row[0], row[2]): (int(row[4]), int(row[6])) for row in map(str.split, listing) if row[1] == "out"}
    waits = sum(committed - acked for committed, acked in rows.values())
    for ordinal, number, host in re.findall(r"\[expired (\d+) (\d+) (\w+)\.", text):
        waits -= int(number) > rows[host, ordinal][1]
    ordinary = set(re.findall(r" sent (\S+)", text))
    return 3 * waits + sum(plain(lines, host, ordinary) for host in HOSTS)


def meeting(draw):
    first = draw.choice(HOSTS)
    return [f"connect {first} {NOW} 1 1", *(f"flow {(first, OTHER[first])[turn % 2]} {NOW}" for turn in range(5)), "disconnect"]


def is_empty(replies):
    """Nothing went in a meeting but its four set-up packets."""
    return re.fullmatch(r"\d+ connected( \d+){4}", replies[0]) is not None and all(re.fullmatch(r"\d+ flowed", reply) for reply in replies[1:6])


def recovers(seed):
    """Whether a drawn script is drained by the schedule."""
    draw = random.Random(seed)
    begun = drawn(draw) + [f"restart {host} {draw.choice(PICKS)}" for host in draw.sample(HOSTS, 2)]
    count = work(begun)
    meet = meeting(draw)
    replies, _ = replay(begun + meet * (count + 1))
    meets = [replies[len(begun) + at:][:len(meet)] for at in range(0, len(meet) * (count + 1), len(meet))]
    took = next(at for at in range(count + 2) if at == count + 1 or all(map(is_empty, meets[at:])))
    counts["scripts"] += 1
    counts["with work"] += count > 0
    counts["work"] += count
    counts["meetings that were needed"] += took
    counts["meetings that were needed at most"] = max(counts["meetings that were needed at most"], took)
    return is_empty(meets[-1])


bad = [seed for seed in range(SEED, SEED + SCRIPTS) if not recovers(seed)]
print(*(f"{name}: {count}" for name, count in counts.items()), f"not drained: {bad or 'none'}", sep="\n")
sys.exit(bool(bad))
