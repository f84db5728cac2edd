/* Loaded before the library of the system, by beside.py and shell.py. Each sync takes DELAYED_SYNC microseconds more, and
   each read of the standard input has at most DELAYED_PIECE bytes, where these are in the environment. */
#define _GNU_SOURCE
#include <dlfcn.h>
#include <stdlib.h>
#include <sys/prctl.h>
#include <time.h>
#include <unistd.h>

static long of(const char *name) {
    const char *text = getenv(name);
    return text ? atol(text) : 0;
}

static int sync_by(const char *name, int fd) {
    static int (*sync)(int), (*datasync)(int);
    static long micros = -1;
    if (micros < 0) {
        micros = of("DELAYED_SYNC");
        sync = dlsym(RTLD_NEXT, "fsync");
        datasync = dlsym(RTLD_NEXT, "fdatasync");
        prctl(PR_SET_TIMERSLACK, 1);
    }
    if (micros) {
        struct timespec wait = {micros / 1000000, micros % 1000000 * 1000};
        nanosleep(&wait, NULL);
    }
    return name[1] == 'd' ? datasync(fd) : sync(fd);
}

int fsync(int fd) { return sync_by("fsync", fd); }
int fdatasync(int fd) { return sync_by("fdatasync", fd); }

ssize_t read(int fd, void *bytes, size_t len) {
    static ssize_t (*call)(int, void *, size_t);
    static long piece;
    if (!call) {
        piece = of("DELAYED_PIECE");
        call = dlsym(RTLD_NEXT, "read");
    }
    return call(fd, bytes, fd == 0 && piece && len > (size_t)piece ? (size_t)piece : len);
}
