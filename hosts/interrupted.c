/* A `read` and a `write` that do less than they are asked, to be put before the C library's by LD_PRELOAD (hosts/listing.py). By LISTING_FAULT:
 *   interrupted    every second call fails with EINTR, and the others move at most 7 bytes
 *   nothing        a write to standard output takes nothing, and names no error */
#define _GNU_SOURCE
#include <errno.h>
#include <stdlib.h>
#include <string.h>
#include <sys/syscall.h>
#include <unistd.h>

static int is(const char *fault) {
    const char *asked = getenv("LISTING_FAULT");
    return asked != NULL && strcmp(asked, fault) == 0;
}

/* How many bytes the next call may move; 0 where it is interrupted. */
static size_t most(size_t count) {
    static int calls;
    if (!is("interrupted"))
        return count;
    return calls++ % 2 == 0 ? 0 : count < 7 ? count : 7;
}

static ssize_t interrupted(void) {
    errno = EINTR;
    return -1;
}

ssize_t read(int fd, void *bytes, size_t count) {
    size_t n = most(count);
    return n == 0 ? interrupted() : syscall(SYS_read, fd, bytes, n);
}

ssize_t write(int fd, const void *bytes, size_t count) {
    if (is("nothing") && fd == STDOUT_FILENO)
        return 0;
    size_t n = most(count);
    return n == 0 ? interrupted() : syscall(SYS_write, fd, bytes, n);
}
