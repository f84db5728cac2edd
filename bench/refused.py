#!/usr/bin/env python3
"""refused.py [MOST]: refuses each allocation of a command in turn (the first MOST, or all): of `mqb probe` at a store of alpha to which beta's Establish and Parameters
come, of the same at a store of beta to which an order comes, of `mqb commit`, `take` and `list`, and of `mqb replay` of examples/one_message.mqb and of the
made script of 200 orders.

Each run must end with status 10, and what it printed must begin what the whole run prints; or the refusal does no harm, and it is as the whole run. Afterwards the
store must list what it listed before, or what the whole run leaves. It prints, of each command, how many allocations it makes, how many refusals did no harm, and of
the others how many had each number of printed bytes.

Seen: of 20 allocations of a session 18 ended with status 10 and nothing printed, of 63 of an order 61 (26 behind nothing, 34 behind the set-up's 604 bytes, one behind
all 820), of 121 of a commit 111, of 60 of a take 58, of 43 of a list 41, of 229 of a replay 214; and before a transaction's packets were read once, of 27,160 of a
replay of 200 orders 26,433 (fronts of more than 200 lengths, up to 24,980 bytes; twenty minutes by four processes on a busy machine). Each of the others grows a list of words, which std's `collect` gathers:
it asks for room by a hint and, where that is refused, once more for room for one, which takes as much here. The words of a command line are gathered by `main`, for
the file, and by `run`, and so are those of an op of a commit; those of a line of a script once. `init` is not among the commands: where the name of its
folder finds no memory, it ends with a disk fault, as `create` of a `FileDisk` does.

The allocations are those of the C library, refused by a library that stands before it, which `cc` makes. It stands outside the gate. MQB names another program
than `./mqb --where` does.
"""
import collections, os, pathlib, shutil, subprocess, sys, tempfile, threading
from concurrent.futures import ThreadPoolExecutor
from managers import MQB, TOP

MOST = int(sys.argv[1]) if len(sys.argv) > 1 else None
MEMORY = 10
ALPHA = ("alpha", "0a0b0c0d-1112-1314-1516-1718191a1b1c", "127.0.0.1")
BETA = ("beta", "2a2b2c2d-3132-3334-3536-3738393a3b3c", "127.0.0.1")
GUIDS = {"alpha": "0d0c0b0a1211141315161718191a1b1c", "beta": "2d2c2b2a3231343335363738393a3b3c"}
PARAMETERS = bytes.fromhex("10000800 4c494f52 20000000 ffffffff 03000000 10270000 204e0000 00004000")
ORDER = bytes.fromhex(
    "10001000 4c494f52 d0000000 ffffffff" + GUIDS["alpha"] + GUIDS["beta"] + "ffffffff e8030000 01000000 0f000000 1700"
    + "".join(f"{ord(letter):02x}00" for letter in r"OS:beta\PRIVATE$\orders") + "00000000 01000000 e8030000 01000000 00000000"
    + "00" * 32 + "03000000 03000000" + "00" * 16 + "6f6e65 00" + "00000000 00000000 01000000 40000000"
)


def establish(client, server):
    return bytes.fromhex("10000800 4c494f52 3c020000 ffffffff 02000000" + GUIDS[client] + GUIDS[server] + "e8030000 00000000") + b"\x5a" * 512


def mqb(*words, **more):
    return subprocess.run([MQB, *words], capture_output=True, **more)


def asked(*words):
    done = mqb(*words)
    assert done.returncode == 0, (words, done.returncode, done.stdout, done.stderr)
    return done.stdout


# Refuses the allocation whose number REFUSED says, counted from 1 (0: none), and at the end writes how many there were into the file that REFUSED_TOLD names. What the
# loader allocates before is not counted. The clock stands still, so that each run prints the same.
REFUSING = r"""#define _GNU_SOURCE
#include <dlfcn.h>
#include <stdio.h>
#include <stdlib.h>
#include <time.h>

static unsigned long refused, made;

static int refuses(void) { return ++made == refused; }

__attribute__((constructor)) static void begin(void) {
  const char *text = getenv("REFUSED");
  refused = text ? strtoul(text, 0, 10) : 0;
  made = 0;
}

__attribute__((destructor)) static void end(void) {
  unsigned long count = made;
  const char *name = getenv("REFUSED_TOLD");
  FILE *file = name ? fopen(name, "w") : 0;
  if (file) {
    fprintf(file, "%lu", count);
    fclose(file);
  }
}

int clock_gettime(clockid_t clock, struct timespec *now) {
  now->tv_sec = 1800000000;
  now->tv_nsec = 0;
  return 0;
}

void *malloc(size_t size) {
  static void *(*next)(size_t);
  if (!next) next = dlsym(RTLD_NEXT, "malloc");
  return refuses() ? 0 : next(size);
}

void *realloc(void *old, size_t size) {
  static void *(*next)(void *, size_t);
  if (!next) next = dlsym(RTLD_NEXT, "realloc");
  return refuses() ? 0 : next(old, size);
}

void *aligned_alloc(size_t alignment, size_t size) {
  static void *(*next)(size_t, size_t);
  if (!next) next = dlsym(RTLD_NEXT, "aligned_alloc");
  return refuses() ? 0 : next(alignment, size);
}

int posix_memalign(void **given, size_t alignment, size_t size) {
  static int (*next)(void **, size_t, size_t);
  if (!next) next = dlsym(RTLD_NEXT, "posix_memalign");
  return refuses() ? 12 : next(given, alignment, size);
}
"""


class Refusing:
    """A library that refuses one allocation."""

    def __init__(self, folder):
        self.library, self.folder = folder / "refusing.so", folder
        subprocess.run(["cc", "-O1", "-shared", "-fPIC", "-x", "c", "-o", self.library, "-"], input=REFUSING.encode(), check=True)

    def run(self, at, words, given):
        """What a command does whose allocation of this number is refused, and how many it made."""
        told = self.folder / f"told{threading.get_ident()}"
        told.unlink(missing_ok=True)
        # the two disks of a replay are large, and are cleared more quickly in large pages
        more = {"LD_PRELOAD": str(self.library), "REFUSED": str(at), "REFUSED_TOLD": str(told), "GLIBC_TUNABLES": "glibc.malloc.hugetlb=1"}
        done = mqb(*words, input=given, env={**os.environ, **more}, timeout=60)
        return done, int(told.read_text())


def refuse(refusing, name, words, given, store, fresh):
    """Refuses each allocation of a command."""
    def again():
        if store:
            shutil.copyfile(fresh, store)
    def left():
        return asked("list", store) if store else b""
    again()
    before = left()
    whole, count = refusing.run(0, words, given)
    after = left()
    assert whole.returncode == 0 and count > 0, (name, whole, count)
    lengths, harmless = collections.Counter(), []

    def refused(at):
        again()
        done, _ = refusing.run(at, words, given)
        assert left() in (before, after), (name, at)
        return at, done

    # runs over one store take turns
    pool = ThreadPoolExecutor(1 if store else os.cpu_count())
    for at, done in pool.map(refused, range(1, (min(count, MOST) if MOST else count) + 1)):
        if (done.returncode, done.stdout) == (0, whole.stdout):
            harmless.append(at)
            continue
        assert done.returncode == MEMORY, (name, at, done.returncode, done.stdout[-200:], done.stderr[-200:])
        assert whole.stdout.startswith(done.stdout), (name, at, done.stdout[-200:])
        lengths[len(done.stdout)] += 1
    printed = ", ".join(f"{length} bytes {times} times" for length, times in sorted(lengths.items()))
    if len(lengths) > 20:
        printed = f"fronts of {len(lengths)} lengths, {min(lengths)} to {max(lengths)}"
    print(f"{name}: {count} allocations, {sum(lengths.values()) + len(harmless)} refused, {len(harmless)} without harm {harmless[:20]}; "
          f"of {len(whole.stdout)} bytes were printed {printed}", flush=True)


def main():
    with tempfile.TemporaryDirectory() as folder:
        folder = pathlib.Path(folder)
        refusing = Refusing(folder)
        alpha, beta, store = folder / "alpha.store", folder / "beta.store", folder / "tried.store"
        for made, own, other in ((alpha, ALPHA, BETA), (beta, BETA, ALPHA)):
            asked("init", made, *own)
            asked("peer", made, *other)
        asked("create", beta, "orders", "tx", "100", "none")
        session = establish("beta", "alpha") + PARAMETERS
        order = establish("alpha", "beta") + PARAMETERS + ORDER
        refuse(refusing, "a session", ("probe", store), session, store, alpha)
        refuse(refusing, "an order", ("probe", store), order, store, beta)
        commit = [f"send,DIRECT=OS:{host}\\PRIVATE$\\orders,-,-,-,-,-,one" for host in ("alpha", "beta")]
        refuse(refusing, "a commit", ("commit", store, *commit), b"", store, beta)
        asked("commit", beta, commit[1])
        refuse(refusing, "a take", ("take", store, "orders"), b"", store, beta)
        refuse(refusing, "a list", ("list", store), b"", store, beta)
        script = (TOP / "examples/one_message.mqb").read_bytes()
        refuse(refusing, "a replay", ("replay",), script, None, None)
        refuse(refusing, "a replay of 200 orders", ("replay",), asked("make", "200"), None, None)


main()
