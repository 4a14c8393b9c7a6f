/* Refuses the allocation whose number REFUSE says, counted over all threads, and makes the file that REFUSED names when it does.
   Loaded before C's own library (LD_PRELOAD); tools/try-allocations makes it. glibc alone has the calls that it hands on to. */
#include <errno.h>
#include <fcntl.h>
#include <stdatomic.h>
#include <stddef.h>
#include <stdlib.h>
#include <unistd.h>

extern void *__libc_malloc(size_t size);
extern void *__libc_calloc(size_t count, size_t size);
extern void *__libc_realloc(void *old, size_t size);

static atomic_long counted;

static int refuses(void)
{
    const char *number = getenv("REFUSE"), *mark = getenv("REFUSED");
    if (!number || atomic_fetch_add(&counted, 1) + 1 != atol(number))
        return 0;
    if (mark)
        close(open(mark, O_CREAT | O_WRONLY, 0644));
    errno = ENOMEM;
    return 1;
}

void *malloc(size_t size)
{
    return refuses() ? NULL : __libc_malloc(size);
}

void *calloc(size_t count, size_t size)
{
    return refuses() ? NULL : __libc_calloc(count, size);
}

void *realloc(void *old, size_t size)
{
    return refuses() ? NULL : __libc_realloc(old, size);
}
