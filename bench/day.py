#!/usr/bin/env python3
"""day.py [MINUTES [SEED]]: managers at work for so many minutes (60), by the loop of docs/OPERATIONS.md, on three hosts (network namespaces): beta has it for orders, alpha for the answers
to its own, and gamma, which nobody can call, fetches. Alpha and gamma commit a drawn transaction of one to three orders every few seconds, and in between a loop, one of its
programs or a commit is killed by signal 9, and a link goes down or loses all packets for some seconds. A loop that ended starts again as its unit says.

At the end nothing more is done, and what waits must come: each order that was committed was handled by beta once, in the order of its sender's commits, was answered once, and its answer
was handled once at its sender, in order; each row is acknowledged, and no queue has a message. `handle` counts what it was given again. A commit that was killed is looked for with `list`.

Seen, in 11 minutes of seed 24, by the released program whose sum begins with b9784d31, on a machine with some twice as many busy programs as processors: 16 loops, 6 of their programs and 23 commits were
killed, 5 links cut, and of 596 orders each was handled and answered once, and each answer handled once; none was handed to `handle` again. No commit found the store in use, no loop stopped for
good, and all was through 10 seconds behind the last commit. The program 91d03e07, before it, went 32 minutes so (seed 5), with 1,668 orders, and 21bffc63 60 minutes (seed 3), with 3,109. A day was not run.

It wants root, for the hosts. It stands outside the gate. Port 1801, or MQB_PORT, is that of each host. MQB names another program than `./mqb --where` does.
"""
import collections, os, pathlib, random, re, signal, subprocess, sys, threading, time
from managers import GUIDS, MQB, TOP, asked, folder, ids_of, marks_of, mqb, send

MINUTES = float(sys.argv[1]) if len(sys.argv) > 1 else 60
SEED = int(sys.argv[2]) if len(sys.argv) > 2 else int(time.time())
GUIDS = {**GUIDS, "gamma": "2a2b2c2d-2e2f-3031-3233-343536373839"}
ADDRESSES = {host: f"10.77.81.{at + 1}" for at, host in enumerate(GUIDS)}
PAGE = (TOP / "docs/OPERATIONS.md").read_text()
UNIT = dict(re.findall(r"(?m)^    (\w+)=(.*)", PAGE))
ANSWER = r"'send,DIRECT=OS:alpha\PRIVATE$\answers,-,-,d,-,-,done'"
HANDLE = """#!/bin/bash
read -r id _ _ _ _ _ _ response _ body
if grep -q "^$id " handled; then echo "$id" >>again; else echo "$id $body" >>handled; fi
"""
FETCHES = """#!/bin/bash
while :; do
  mqb fetch gamma.store beta 2
  [ $? -ne 6 ] || exit 6
  while answer=$(mqb peek gamma.store answers); do
    ./handle <<<"$answer" || exit
    mqb take gamma.store answers || exit
  done
  sleep 3
done
"""
counts = collections.Counter()
is_over = threading.Event()


def said(*words):
    return subprocess.run(words, check=True, capture_output=True, text=True).stdout


def loops():
    """The loop of the page, as beta has it; for alpha, which takes answers; and gamma's."""
    loop = re.sub("(?m)^    ", "", re.search(r"(?m)^    #!/bin/bash\n(    .*\n)+", PAGE)[0])
    commit = f"mqb commit beta.store take,orders {ANSWER}"
    assert loop.count(commit) == 1, loop
    turned = loop.replace(commit, "mqb take beta.store orders").replace("orders", "answers").replace("order", "answer")
    swapped = re.sub("alpha|beta", lambda found: {"alpha": "beta", "beta": "alpha"}[found[0]], turned)
    return {"alpha": swapped, "beta": loop.replace(ANSWER, '"send,$(cut -d" " -f8 <<<"$order"),-,-,d,-,-,done-${order%% *}"'), "gamma": FETCHES}


class Host:
    """A host with its manager, and the service that it runs."""

    def __init__(self, top, host, loop):
        self.host, self.net, self.folder, self.running, self.due = host, f"mqb-{host}", top / host, None, 0
        self.store = str(self.folder / f"{host}.store")
        self.folder.mkdir()
        for name, text in (("attending", loop), ("handle", HANDLE), ("handled", ""), ("again", "")):
            (self.folder / name).write_text(text)
        (self.folder / "handle").chmod(0o755)
        (self.folder / "mqb").symlink_to(MQB)
        asked("init", self.store, host, GUIDS[host], ADDRESSES[host])
        for other in GUIDS:
            if "beta" in (host, other) and host != other:
                asked("peer", self.store, other, GUIDS[other], ADDRESSES[other])
        asked("create", self.store, "orders" if host == "beta" else "answers", "tx", "100000", "none")

    def link(self):
        said("ip", "netns", "add", self.net)
        said("ip", "link", "add", f"{self.net}-h", "type", "veth", "peer", "name", "eth0", "netns", self.net)
        said("ip", "link", "set", f"{self.net}-h", "master", "mqb-day", "up")
        said("ip", "-n", self.net, "addr", "add", f"{ADDRESSES[self.host]}/24", "dev", "eth0")
        said("ip", "-n", self.net, "link", "set", "eth0", "up")
        said("ip", "-n", self.net, "link", "set", "lo", "up")

    def meet(self, others):
        """Knows where the other ones are on the wire for good, so a host that is cut off is silent, and not unknown."""
        for other in others:
            wire = re.search(r"link/ether (\S+)", said("ip", "-n", other.net, "link", "show", "eth0"))[1]
            said("ip", "-n", self.net, "neigh", "replace", ADDRESSES[other.host], "lladdr", wire, "dev", "eth0", "nud", "permanent")

    def cut(self):
        """The link goes down, or it loses all packets."""
        if random.random() < 0.5:
            said("ip", "link", "set", f"{self.net}-h", "down")
        else:
            said("bridge", "link", "set", "dev", f"{self.net}-h", "state", "0")
        counts["links cut"] += 1

    def heal(self):
        """The link goes up; its port takes no state until the system has seen that, which a busy one may do late."""
        said("ip", "link", "set", f"{self.net}-h", "up")
        for _ in range(100):
            if subprocess.run(("bridge", "link", "set", "dev", f"{self.net}-h", "state", "3"), capture_output=True).returncode == 0:
                return
            time.sleep(0.1)
        raise SystemExit(f"the link of {self.host} did not come up")

    def unlink(self):
        for words in (("ip", "link", "del", f"{self.net}-h"), ("ip", "netns", "del", self.net)):
            subprocess.run(words, capture_output=True)

    def keep(self):
        """Starts the service, or starts it again as its unit says."""
        if self.running and self.running.poll() is not None:
            status = self.running.returncode
            counts[f"{self.host}'s loop ended with {status}"] += 1
            if str(status) in UNIT["RestartPreventExitStatus"].split():
                print(f"{self.host}: its loop ended with {status}, which its unit does not start again: {said('tail', '-3', str(self.folder / 'log'))}", flush=True)
            self.running, self.due = None, time.time() + int(UNIT["RestartSec"])
        if not self.running and time.time() >= self.due:
            log = open(self.folder / "log", "a")
            path = f"{self.folder}:{os.environ['PATH']}"
            self.running = subprocess.Popen(["ip", "netns", "exec", self.net, "/bin/bash", "attending"], cwd=self.folder, stdout=log, stderr=log, env={**os.environ, **dict(re.findall(r"(\w+)=(\w+)", UNIT["Environment"])), "PATH": path}, start_new_session=True)

    def kill(self):
        """Kills the service, or a program of it alone."""
        if not self.running:
            return
        programs = said("ps", "-o", "pid=,comm=", "-s", str(self.running.pid)).split("\n")
        mine = [int(line.split()[0]) for line in programs if line.endswith(" mqb")]
        try:
            if mine and random.random() < 0.5:
                os.kill(mine[0], signal.SIGKILL)
                counts["programs killed"] += 1
            else:
                os.killpg(self.running.pid, signal.SIGKILL)
                counts["loops killed"] += 1
        except ProcessLookupError:
            pass

    def stop(self):
        if self.running:
            os.killpg(self.running.pid, signal.SIGKILL)

    def handled(self):
        """What it handled: identifiers and bodies."""
        lines = [line.split() for line in (self.folder / "handled").read_text().splitlines()]
        return [(name, bytes.fromhex(body).decode()) for name, body in lines]


class Sender(threading.Thread):
    """Commits drawn orders until the day is over. `orders` has the bodies that were committed."""

    def __init__(self, at):
        super().__init__()
        self.at, self.orders, self.draw, self.failed = at, [], random.Random(random.random()), None

    def committed(self):
        while True:
            done = mqb("list", self.at.store)
            if done.returncode == 0:
                return marks_of(done.stdout.splitlines())[0]
            counts["lists that found the store in use"] += 1

    def commit(self):
        bodies = [f"{self.at.host}{len(self.orders) + more:06}" for more in range(self.draw.randrange(1, 4))]
        response = rf"DIRECT=OS:{self.at.host}\PRIVATE$\answers"
        words = [MQB, "commit", self.at.store, *(rf"send,DIRECT=OS:beta\PRIVATE$\orders,-,-,d,-,{response},{body}" for body in bodies)]
        running = subprocess.Popen(words, stdout=subprocess.PIPE, stderr=subprocess.DEVNULL, text=True, env={**os.environ, "MQB_HOLD": "30"})
        if self.draw.random() < 0.1:
            time.sleep(self.draw.uniform(0, 0.06))
            running.kill()
        printed, status = running.communicate()[0], running.returncode
        if status == -signal.SIGKILL:
            counts["commits killed"] += 1
            made = self.committed() - len(self.orders)
            assert made in (0, len(bodies)) and (made or not printed.endswith("\n")), (made, printed)
        else:
            assert status in (0, 6), (status, printed)
            made = len(bodies) if status == 0 else 0
            counts["commits that found the store in use"] += status == 6
        self.orders += bodies[:made]

    def run(self):
        try:
            while not is_over.wait(self.draw.uniform(1, 6)):
                self.commit()
        except BaseException as said:
            self.failed = said
            raise


def disturb(hosts, until):
    """Keeps the services up, and disturbs them, until this time."""
    next_kill, next_cut, next_line, healing = time.time() + 30, time.time() + 60, time.time() + 300, None
    while time.time() < until:
        for host in hosts.values():
            host.keep()
        now = time.time()
        if now > next_kill:
            random.choice(list(hosts.values())).kill()
            next_kill = now + random.uniform(10, 50)
        if healing and now > healing[1]:
            healing[0].heal()
            healing = None
        if not healing and now > next_cut:
            host = random.choice(list(hosts.values()))
            host.cut()
            healing, next_cut = (host, now + random.uniform(2, 25)), now + random.uniform(60, 180)
        if now > next_line:
            print(f"{time.strftime('%H:%M')}: {', '.join(f'{host.host} handled {len(host.handled())}' for host in hosts.values())}; {dict(counts)}", flush=True)
            next_line += 300
        time.sleep(0.1)
    if healing:
        healing[0].heal()


def is_through(hosts, orders):
    """Whether nothing waits any more at any host."""
    for host in hosts.values():
        done = mqb("list", host.store)
        lines = done.stdout.splitlines()
        if done.returncode != 0 or any(ids_of(lines).values()):
            return False
        committed, acknowledged, decided = marks_of(lines)
        sent, came = (orders, orders) if host.host == "beta" else (len(host.sender.orders),) * 2
        if (committed, acknowledged, decided) != (sent, sent, came):
            return False
    return True


def check(hosts):
    """Each order was handled once and in order, and so was its answer."""
    handled = hosts["beta"].handled()
    for sender in (hosts["alpha"].sender, hosts["gamma"].sender):
        host = sender.at.host
        mine = [(name, body) for name, body in handled if name.startswith(f"{host}.")]
        assert [body for _, body in mine] == sender.orders, (host, len(mine), len(sender.orders))
        answers = [body for _, body in sender.at.handled()]
        assert answers == [f"done-{name}" for name, _ in mine], (host, len(answers), len(mine))
    names = [name for host in hosts.values() for name, _ in host.handled()]
    assert len(names) == len(set(names)), "an identifier twice"


def main():
    random.seed(SEED)
    print(f"seed {SEED}, {MQB}, {MINUTES} minutes", flush=True)
    with folder() as name:
        hosts = {host: Host(pathlib.Path(name), host, loop) for host, loop in loops().items()}
        try:
            said("ip", "link", "add", "mqb-day", "type", "bridge")
            said("ip", "link", "set", "mqb-day", "up")
            for host in hosts.values():
                host.link()
            for host in hosts.values():
                host.meet(other for other in hosts.values() if other is not host)
            began = time.time()
            senders = [Sender(hosts[host]) for host in ("alpha", "gamma")]
            for sender in senders:
                sender.at.sender = sender
                sender.start()
            disturb(hosts, began + 60 * MINUTES)
            is_over.set()
            for sender in senders:
                sender.join()
                assert not sender.failed, sender.failed
            orders, ended = sum(len(sender.orders) for sender in senders), time.time()
            while not is_through(hosts, orders):
                assert time.time() - ended < 600, {host.host: asked("list", host.store) for host in hosts.values()}
                for host in hosts.values():
                    host.keep()
                time.sleep(1)
            check(hosts)
            again = sum(len((host.folder / "again").read_text().splitlines()) for host in hosts.values())
            kinds = ", ".join(f"{count} {kind}" for kind, count in sorted(counts.items()))
            print(f"{orders} orders, each handled and answered once, and each answer handled once; {again} handed to `handle` again; {kinds}; "
                  f"{(ended - began) / 60:.0f} minutes, all through {time.time() - ended:.0f} s later; stores of {', '.join(str(os.path.getsize(host.store)) for host in hosts.values())} bytes")
        finally:
            is_over.set()
            for host in hosts.values():
                host.stop()
                host.unlink()
            subprocess.run(["ip", "link", "del", "mqb-day"], capture_output=True)


main()
