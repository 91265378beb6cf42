// Preloaded under a program, lets one of its requests for memory fail: the one whose number stands in REFUSE, counted from 1.
// At the end it adds a line to the file named in REQUESTS: how many requests there were.
#define _GNU_SOURCE
#include <dlfcn.h>
#include <errno.h>
#include <stddef.h>
#include <stdio.h>
#include <stdlib.h>

static long requests;

static int refused(void)
{
    static long at = -1;
    if (at < 0) {
        const char *number = getenv("REFUSE");
        at = number ? atol(number) : 0;
    }
    return ++requests == at;
}

void *malloc(size_t size)
{
    static void *(*real)(size_t);
    if (!real)
        real = dlsym(RTLD_NEXT, "malloc");
    if (refused()) {
        errno = ENOMEM;
        return NULL;
    }
    return real(size);
}

void *realloc(void *block, size_t size)
{
    static void *(*real)(void *, size_t);
    if (!real)
        real = dlsym(RTLD_NEXT, "realloc");
    if (refused()) {
        errno = ENOMEM;
        return NULL;
    }
    return real(block, size);
}

void *aligned_alloc(size_t alignment, size_t size)
{
    static void *(*real)(size_t, size_t);
    if (!real)
        real = dlsym(RTLD_NEXT, "aligned_alloc");
    if (refused()) {
        errno = ENOMEM;
        return NULL;
    }
    return real(alignment, size);
}

int posix_memalign(void **block, size_t alignment, size_t size)
{
    static int (*real)(void **, size_t, size_t);
    if (!real)
        real = dlsym(RTLD_NEXT, "posix_memalign");
    return refused() ? ENOMEM : real(block, alignment, size);
}

__attribute__((destructor)) static void tell(void)
{
    const char *name = getenv("REQUESTS");
    FILE *file = name ? fopen(name, "a") : NULL;
    if (file) {
        fprintf(file, "%ld\n", requests);
        fclose(file);
    }
}
