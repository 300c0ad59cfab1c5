// A library to be loaded before a program (LD_PRELOAD): the call of malloc, calloc or realloc with the number in FAIL_AT finds no
// memory, and the file named in FAILED is made then.
#define _GNU_SOURCE
#include <dlfcn.h>
#include <errno.h>
#include <fcntl.h>
#include <stdlib.h>
#include <unistd.h>

extern void *__libc_malloc(size_t);
extern void *__libc_calloc(size_t, size_t);
extern void *__libc_realloc(void *, size_t);
extern void *__libc_memalign(size_t, size_t);

static long calls;

static int fails(void)
{
    static long at = -1;
    if (at < 0) {
        const char *text = getenv("FAIL_AT");
        at = text ? atol(text) : 0;
    }
    if (++calls != at)
        return 0;
    const char *file = getenv("FAILED");
    int made = file ? open(file, O_CREAT | O_WRONLY, 0600) : -1;
    if (made >= 0)
        close(made);
    errno = ENOMEM;
    return 1;
}

void *malloc(size_t size)
{
    return fails() ? NULL : __libc_malloc(size);
}

void *calloc(size_t count, size_t size)
{
    return fails() ? NULL : __libc_calloc(count, size);
}

void *realloc(void *old, size_t size)
{
    return fails() ? NULL : __libc_realloc(old, size);
}

void *aligned_alloc(size_t align, size_t size)
{
    return fails() ? NULL : __libc_memalign(align, size);
}

int posix_memalign(void **into, size_t align, size_t size)
{
    if (fails())
        return ENOMEM;
    *into = __libc_memalign(align, size);
    return *into ? 0 : ENOMEM;
}
