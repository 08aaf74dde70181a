/* Stands before the C library by LD_PRELOAD: the read numbered FAIL_READ, from 1, of files other than the three
   standard streams fails, and each read and write takes SHORT_IO bytes at most. */
#define _GNU_SOURCE
#include <dlfcn.h>
#include <errno.h>
#include <stdlib.h>
#include <unistd.h>

static unsigned long number(const char *name, unsigned long otherwise)
{
    const char *text = getenv(name);
    return text ? strtoul(text, NULL, 10) : otherwise;
}

static size_t at_most(size_t count)
{
    size_t limit = number("SHORT_IO", count);
    return count < limit ? count : limit;
}

ssize_t read(int file, void *bytes, size_t count)
{
    static unsigned long reads;
    ssize_t (*usual)(int, void *, size_t) = (ssize_t (*)(int, void *, size_t))dlsym(RTLD_NEXT, "read");
    if (file > 2 && ++reads == number("FAIL_READ", 0)) {
        errno = EIO;
        return -1;
    }
    return usual(file, bytes, at_most(count));
}

ssize_t write(int file, const void *bytes, size_t count)
{
    ssize_t (*usual)(int, const void *, size_t) =
        (ssize_t (*)(int, const void *, size_t))dlsym(RTLD_NEXT, "write");
    return usual(file, bytes, at_most(count));
}
