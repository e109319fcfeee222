/* Loaded before the C library's read and write under a proved program, by LD_PRELOAD.
 * FAIL_READ=N fails the Nth read and all later ones, FAIL_WRITE=N the Nth write to the standard output and all later ones. At the end it
 * writes how many there were, on standard error. */
#define _GNU_SOURCE
#include <dlfcn.h>
#include <errno.h>
#include <stdio.h>
#include <stdlib.h>
#include <unistd.h>

static long reads, writes, fail_read, fail_write;

__attribute__((constructor)) static void set_up(void)
{
    fail_read = getenv("FAIL_READ") ? atol(getenv("FAIL_READ")) : 0;
    fail_write = getenv("FAIL_WRITE") ? atol(getenv("FAIL_WRITE")) : 0;
}

__attribute__((destructor)) static void report(void)
{
    fprintf(stderr, "\nreads %ld writes %ld\n", reads, writes);
}

ssize_t read(int fd, void *buffer, size_t size)
{
    static ssize_t (*next)(int, void *, size_t);
    if (!next)
        next = dlsym(RTLD_NEXT, "read");
    reads++;
    if (fail_read && reads >= fail_read) {
        errno = EIO;
        return -1;
    }
    return next(fd, buffer, size);
}

ssize_t write(int fd, const void *bytes, size_t size)
{
    static ssize_t (*next)(int, const void *, size_t);
    if (!next)
        next = dlsym(RTLD_NEXT, "write");
    if (fd == STDOUT_FILENO) {
        writes++;
        if (fail_write && writes >= fail_write) {
            errno = EIO;
            return -1;
        }
    }
    return next(fd, bytes, size);
}
