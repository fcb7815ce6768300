/* Stands before the C library's read and write (LD_PRELOAD), for tests/streams: every call is interrupted twice before it is made, and
   then moves at most 5 bytes; where FAILS_AT is set, the call of that number, and every later one, fails as a broken device does. */
#define _GNU_SOURCE
#include <errno.h>
#include <stdlib.h>
#include <sys/syscall.h>
#include <unistd.h>

enum { MOST = 5, INTERRUPTED = 2 };
static int calls;

static ssize_t move(long kind, int fd, void *buffer, size_t size) {
    const char *fails_at = getenv("FAILS_AT");
    calls++;
    if (fd != 2 && fails_at && calls >= atoi(fails_at)) {
        errno = EIO;
        return -1;
    }
    if (calls % (INTERRUPTED + 1) != 0) {
        errno = EINTR;
        return -1;
    }
    return syscall(kind, fd, buffer, size < MOST ? size : MOST);
}

ssize_t read(int fd, void *buffer, size_t size) {
    return move(SYS_read, fd, buffer, size);
}

ssize_t write(int fd, const void *buffer, size_t size) {
    if (fd == 2)
        return syscall(SYS_write, fd, buffer, size);
    return move(SYS_write, fd, (void *)buffer, size);
}
