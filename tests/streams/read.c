/* A `read` that takes the place of the C library's in a program that it is loaded before. Of the descriptor READ_OF (0 is standard input, 1 any other)
 * it gives the first READ_GOOD bytes, one a call, and then fails with the error READ_ERROR; where READ_AGAIN is set, each call fails so once, and the
 * next one gives a byte. */
#define _GNU_SOURCE
#include <errno.h>
#include <stdlib.h>
#include <sys/syscall.h>
#include <unistd.h>

static long number(const char *name) {
    const char *text = getenv(name);
    return text ? strtol(text, NULL, 10) : 0;
}

ssize_t read(int fd, void *bytes, size_t count) {
    static long given = 0;
    static int failed = 0;
    if ((fd != 0) != number("READ_OF"))
        return syscall(SYS_read, fd, bytes, count);
    if (number("READ_AGAIN") ? !failed : given >= number("READ_GOOD")) {
        failed = 1;
        errno = (int)number("READ_ERROR");
        return -1;
    }
    failed = 0;
    given++;
    return syscall(SYS_read, fd, bytes, count ? 1 : 0);
}
