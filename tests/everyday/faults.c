/* Loaded before a program by LD_PRELOAD, to make calls fail that seldom do.
 * FAULT_ALARM=1: a signal comes every 2 ms, whose handler lets no call be restarted: waiting calls end with EINTR.
 * FAULT_NAME=N FAULT_AFTER=K: of a file whose name ends in N, K bytes can be read, then reading fails with EIO. */
#define _GNU_SOURCE
#include <dlfcn.h>
#include <errno.h>
#include <signal.h>
#include <stdio.h>
#include <stdlib.h>
#include <string.h>
#include <sys/time.h>
#include <unistd.h>

static volatile sig_atomic_t alarms;

static void on_alarm(int number) {
    (void)number;
    alarms++;
}

__attribute__((constructor)) static void begin(void) {
    if (getenv("FAULT_ALARM")) {
        struct sigaction action = {.sa_handler = on_alarm};
        struct itimerval every = {{0, 2000}, {0, 2000}};
        sigaction(SIGALRM, &action, NULL);
        setitimer(ITIMER_REAL, &every, NULL);
    }
}

/* FAULT_INTERRUPTED names a file that gets one byte for each call that ended with EINTR, so that a test can tell. */
static void note(ssize_t got) {
    const char *name = getenv("FAULT_INTERRUPTED");
    if (got >= 0 || errno != EINTR || !name) return;
    FILE *file = fopen(name, "a");
    if (file) {
        fputc('.', file);
        fclose(file);
    }
    errno = EINTR;
}

/* Whether the file behind a descriptor has a name that ends so. */
static int is_named(int fd, const char *end) {
    char link[64], name[4096];
    snprintf(link, sizeof link, "/proc/self/fd/%d", fd);
    ssize_t len = readlink(link, name, sizeof name - 1);
    if (len < (ssize_t)strlen(end)) return 0;
    name[len] = 0;
    return strcmp(name + len - strlen(end), end) == 0;
}

ssize_t read(int fd, void *to, size_t room) {
    static size_t given;
    ssize_t (*next)(int, void *, size_t) = (ssize_t(*)(int, void *, size_t))dlsym(RTLD_NEXT, "read");
    const char *name = getenv("FAULT_NAME");
    if (name && is_named(fd, name)) {
        size_t most = strtoul(getenv("FAULT_AFTER"), NULL, 10);
        if (given >= most) {
            errno = EIO;
            return -1;
        }
        if (room > most - given) room = most - given;
        ssize_t got = next(fd, to, room);
        if (got > 0) given += got;
        return got;
    }
    ssize_t got = next(fd, to, room);
    note(got);
    return got;
}

ssize_t write(int fd, const void *from, size_t len) {
    ssize_t (*next)(int, const void *, size_t) = (ssize_t(*)(int, const void *, size_t))dlsym(RTLD_NEXT, "write");
    ssize_t put = next(fd, from, len);
    note(put);
    return put;
}
