/* Loaded before the C library: the reads of standard input, or the writes of standard output, move few bytes or fail.
   The environment says which: CALL is read or write, SHORT the most bytes that a call moves, ERROR an errno's number,
   FROM and TO the first and the last call that fails with it, counted from 1. */
#define _GNU_SOURCE
#include <errno.h>
#include <stdlib.h>
#include <string.h>
#include <sys/syscall.h>
#include <unistd.h>

static long number(const char *name, long otherwise)
{
    const char *text = getenv(name);
    return text ? atol(text) : otherwise;
}

/* How many of n bytes the next call moves, or -1 if it fails. */
static ssize_t allowed(const char *call, size_t n)
{
    static long calls;
    const char *chosen = getenv("CALL");
    long most = number("SHORT", 1 << 30);
    if (!chosen || strcmp(call, chosen) != 0)
        return n;
    calls++;
    if (number("FROM", 1) <= calls && calls <= number("TO", 0)) {
        errno = number("ERROR", EIO);
        return -1;
    }
    return n < (size_t)most ? (ssize_t)n : most;
}

ssize_t write(int fd, const void *buf, size_t n)
{
    ssize_t most = fd == STDOUT_FILENO ? allowed("write", n) : (ssize_t)n;
    return most < 0 ? -1 : syscall(SYS_write, fd, buf, most);
}

ssize_t read(int fd, void *buf, size_t n)
{
    ssize_t most = fd == STDIN_FILENO ? allowed("read", n) : (ssize_t)n;
    return most < 0 ? -1 : syscall(SYS_read, fd, buf, most);
}
