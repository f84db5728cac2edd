/* Loaded before the library of the system, by unsettled.py. Each sync of a file whose name ends with ".store" copies it
   to that name with ".safe" behind it: so much a power failure leaves of it. Before the sync behind the gate of the
   number that UNSETTLED_STOP has, the program is killed. */
#define _GNU_SOURCE
#include <dlfcn.h>
#include <fcntl.h>
#include <limits.h>
#include <signal.h>
#include <stdio.h>
#include <stdlib.h>
#include <string.h>
#include <unistd.h>

static int gates;

static int is_store(int fd, char *path) {
    char link[64];
    snprintf(link, sizeof link, "/proc/self/fd/%d", fd);
    ssize_t n = readlink(link, path, PATH_MAX - 1);
    if (n < 6)
        return 0;
    path[n] = 0;
    return strcmp(path + n - 6, ".store") == 0;
}

static void copy_safe(const char *path) {
    char safe[PATH_MAX + 8], bytes[65536];
    snprintf(safe, sizeof safe, "%s.safe", path);
    int from = open(path, O_RDONLY), to = open(safe, O_WRONLY | O_CREAT | O_TRUNC, 0600);
    for (ssize_t n; (n = read(from, bytes, sizeof bytes)) > 0;)
        if (write(to, bytes, n) != n)
            abort();
    close(from);
    close(to);
}

/* A gate is the one write of a single byte. */
static ssize_t write_by(const char *name, int fd, const void *bytes, size_t len, off_t at) {
    char path[PATH_MAX];
    ssize_t (*call)(int, const void *, size_t, off_t) = dlsym(RTLD_NEXT, name);
    if (len == 1 && is_store(fd, path))
        gates++;
    return call(fd, bytes, len, at);
}

ssize_t pwrite(int fd, const void *bytes, size_t len, off_t at) { return write_by("pwrite", fd, bytes, len, at); }
ssize_t pwrite64(int fd, const void *bytes, size_t len, off_t at) { return write_by("pwrite64", fd, bytes, len, at); }

static int sync_by(const char *name, int fd) {
    char path[PATH_MAX];
    int (*call)(int) = dlsym(RTLD_NEXT, name);
    if (!is_store(fd, path))
        return call(fd);
    const char *stop = getenv("UNSETTLED_STOP");
    if (stop && gates == atoi(stop))
        raise(SIGKILL);
    int answer = call(fd);
    if (answer == 0)
        copy_safe(path);
    return answer;
}

int fsync(int fd) { return sync_by("fsync", fd); }
int fdatasync(int fd) { return sync_by("fdatasync", fd); }
