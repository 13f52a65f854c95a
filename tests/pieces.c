/* Preloaded into the program under test: `read` gets at most READ_MOST bytes a call and `write` puts at most WRITE_MOST,
   and `read` fails from the call with number READ_FAILS on. */
#define _GNU_SOURCE
#include <errno.h>
#include <stdlib.h>
#include <sys/syscall.h>
#include <unistd.h>

static size_t at_most(const char *name, size_t n)
{
    const char *text = getenv(name);
    size_t most = text ? strtoul(text, NULL, 10) : n;
    return most < n ? most : n;
}

ssize_t read(int fd, void *buffer, size_t n)
{
    static unsigned long calls;
    const char *fails = getenv("READ_FAILS");
    if (fails && ++calls >= strtoul(fails, NULL, 10)) {
        errno = EIO;
        return -1;
    }
    return syscall(SYS_read, fd, buffer, at_most("READ_MOST", n));
}

ssize_t write(int fd, const void *buffer, size_t n)
{
    return syscall(SYS_write, fd, buffer, at_most("WRITE_MOST", n));
}
