/* Loaded before the C library's malloc family under a proved program, by LD_PRELOAD.
 * FAIL_AT=N refuses the Nth allocation and no other. At the end it writes how many allocations were asked for, on standard error. */
#define _GNU_SOURCE
#include <dlfcn.h>
#include <errno.h>
#include <stdio.h>
#include <stdlib.h>

static long allocations, refused_at = -1;
static int is_set_up;

/* Counts an allocation, and says whether it is to be refused. */
static int is_refused(void)
{
    if (!is_set_up) {
        char *number = getenv("FAIL_AT");
        is_set_up = 1;
        if (number)
            refused_at = atol(number);
    }
    allocations++;
    return allocations == refused_at;
}

void *malloc(size_t size)
{
    static void *(*next)(size_t);
    if (!next)
        next = dlsym(RTLD_NEXT, "malloc");
    if (is_refused()) {
        errno = ENOMEM;
        return NULL;
    }
    return next(size);
}

void *aligned_alloc(size_t alignment, size_t size)
{
    static void *(*next)(size_t, size_t);
    if (!next)
        next = dlsym(RTLD_NEXT, "aligned_alloc");
    if (is_refused()) {
        errno = ENOMEM;
        return NULL;
    }
    return next(alignment, size);
}

int posix_memalign(void **place, size_t alignment, size_t size)
{
    static int (*next)(void **, size_t, size_t);
    if (!next)
        next = dlsym(RTLD_NEXT, "posix_memalign");
    if (is_refused())
        return ENOMEM;
    return next(place, alignment, size);
}

void *realloc(void *place, size_t size)
{
    static void *(*next)(void *, size_t);
    if (!next)
        next = dlsym(RTLD_NEXT, "realloc");
    if (is_refused()) {
        errno = ENOMEM;
        return NULL;
    }
    return next(place, size);
}

void *calloc(size_t count, size_t size)
{
    static void *(*next)(size_t, size_t);
    if (!next)
        next = dlsym(RTLD_NEXT, "calloc");
    if (is_refused()) {
        errno = ENOMEM;
        return NULL;
    }
    return next(count, size);
}

__attribute__((destructor)) static void report(void)
{
    fprintf(stderr, "allocations %ld\n", allocations);
}
