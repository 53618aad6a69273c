/* Refuses one request for memory of the program that it is loaded before: the one whose number,
   from 1, REFUSED names. At the end it writes on standard error how many requests there were, how
   many were refused, and how many writes of standard output there were.

   Where FAILS_READ is EIO or ENOMEM, reads of standard input fail by that behind its end. Where
   FAILS_WRITE or FAILS_ERROR is a number, writes of standard output, or of standard error, fail
   once there were so many. */
#define _GNU_SOURCE
#include <dlfcn.h>
#include <errno.h>
#include <stdio.h>
#include <stdlib.h>
#include <string.h>
#include <unistd.h>

static long requests = 0;
static long refusals = 0;
static long wanted = -1;
static int looking = 0;
static long writes[2];

static int refuses(void) {
    if (wanted < 0) {
        const char *text = getenv("REFUSED");
        wanted = text ? atol(text) : 0;
    }
    requests++;
    if (requests != wanted) {
        return 0;
    }
    refusals++;
    errno = ENOMEM;
    return 1;
}

/* The function of this name that would have been called. */
static void *next(const char *name) {
    looking = 1;
    void *found = dlsym(RTLD_NEXT, name);
    looking = 0;
    return found;
}

void *malloc(size_t size) {
    static void *(*real)(size_t);
    if (!real) real = next("malloc");
    return refuses() ? NULL : real(size);
}

void *calloc(size_t count, size_t size) {
    static void *(*real)(size_t, size_t);
    if (looking) return NULL;
    if (!real) real = next("calloc");
    return refuses() ? NULL : real(count, size);
}

void *realloc(void *block, size_t size) {
    static void *(*real)(void *, size_t);
    if (!real) real = next("realloc");
    return refuses() ? NULL : real(block, size);
}

int posix_memalign(void **block, size_t alignment, size_t size) {
    static int (*real)(void **, size_t, size_t);
    if (!real) real = next("posix_memalign");
    return refuses() ? ENOMEM : real(block, alignment, size);
}

void *aligned_alloc(size_t alignment, size_t size) {
    static void *(*real)(size_t, size_t);
    if (!real) real = next("aligned_alloc");
    return refuses() ? NULL : real(alignment, size);
}

ssize_t read(int file, void *bytes, size_t count) {
    static ssize_t (*real)(int, void *, size_t);
    if (!real) real = next("read");
    ssize_t got = real(file, bytes, count);
    const char *error = file == STDIN_FILENO && got == 0 ? getenv("FAILS_READ") : NULL;
    if (!error) return got;
    errno = strcmp(error, "ENOMEM") == 0 ? ENOMEM : EIO;
    return -1;
}

static ssize_t really_write(int file, const void *bytes, size_t count) {
    static ssize_t (*real)(int, const void *, size_t);
    if (!real) real = next("write");
    return real(file, bytes, count);
}

ssize_t write(int file, const void *bytes, size_t count) {
    if (file == STDOUT_FILENO || file == STDERR_FILENO) {
        const char *most = getenv(file == STDOUT_FILENO ? "FAILS_WRITE" : "FAILS_ERROR");
        if (most && writes[file == STDERR_FILENO] >= atol(most)) {
            errno = EIO;
            return -1;
        }
        writes[file == STDERR_FILENO]++;
    }
    return really_write(file, bytes, count);
}

__attribute__((destructor)) static void report(void) {
    char line[120];
    int length = snprintf(line, sizeof line, "requests %ld refused %ld writes %ld\n", requests,
                          refusals, writes[0]);
    if (really_write(STDERR_FILENO, line, length) < 0) _exit(3);
}
