/* For command/test: reads and writes that go wrong, put before the C library's by LD_PRELOAD. FAULTS says how: `short`,
 * at most three bytes a call; `interrupted`, every other read fails with EINTR first; `read N` and `write N`, the Nth
 * call fails; `signal N`, the Nth write fails with EINTR. */
#define _GNU_SOURCE
#include <errno.h>
#include <stdlib.h>
#include <string.h>
#include <sys/syscall.h>
#include <unistd.h>

static int is(const char *what) {
    const char *faults = getenv("FAULTS");
    return faults && !strncmp(faults, what, strlen(what));
}

/* Whether this call, the nth of its kind, is the one that fails. */
static int fails(const char *what, int nth) {
    return is(what) && atoi(getenv("FAULTS") + strlen(what)) == nth;
}

ssize_t read(int fd, void *bytes, size_t most) {
    static int calls;
    calls++;
    if (fails("read ", calls)) {
        errno = EIO;
        return -1;
    }
    if (is("interrupted") && calls % 2) {
        errno = EINTR;
        return -1;
    }
    return syscall(SYS_read, fd, bytes, is("short") && most > 3 ? 3 : most);
}

ssize_t write(int fd, const void *bytes, size_t count) {
    static int calls;
    calls += fd == STDOUT_FILENO;
    if (fd == STDOUT_FILENO && (fails("write ", calls) || fails("signal ", calls))) {
        errno = is("signal") ? EINTR : ENOSPC;
        return -1;
    }
    return syscall(SYS_write, fd, bytes, is("short") && count > 3 ? 3 : count);
}
