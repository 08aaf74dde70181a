/* Put in front of the C library by LD_PRELOAD, it makes one allocation of a program fail: the one whose number,
   from 1, stands in FAIL_ALLOCATION. It then makes the file that FAIL_MARK names. */
#define _GNU_SOURCE
#include <dlfcn.h>
#include <fcntl.h>
#include <stddef.h>
#include <stdlib.h>
#include <unistd.h>

static unsigned long made;

static int fails(void)
{
    const char *wanted = getenv("FAIL_ALLOCATION");
    const char *mark = getenv("FAIL_MARK");
    made++;
    if (wanted == NULL || mark == NULL || strtoul(wanted, NULL, 10) != made)
        return 0;
    close(open(mark, O_CREAT | O_WRONLY, 0600));
    return 1;
}

void *malloc(size_t size)
{
    static void *(*next)(size_t);
    if (next == NULL)
        *(void **)&next = dlsym(RTLD_NEXT, "malloc");
    return fails() ? NULL : next(size);
}

void *realloc(void *old, size_t size)
{
    static void *(*next)(void *, size_t);
    if (next == NULL)
        *(void **)&next = dlsym(RTLD_NEXT, "realloc");
    return fails() ? NULL : next(old, size);
}
