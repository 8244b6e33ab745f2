/* Stands before the C library in a program's process (LD_PRELOAD) and refuses one call of a kind, told by the
   environment: REFUSE is alloc, open, read or write, AT the number of the call, from 1. With SHORT=1 each read and write
   moves one byte at most. A refused write takes TAKES bytes first. At its end the process writes to the file COUNTS how
   many calls of each kind came. Reads and writes count only for the files that the program opened and for its standard
   output. */
#define _GNU_SOURCE
#include <dlfcn.h>
#include <errno.h>
#include <fcntl.h>
#include <stdarg.h>
#include <stdio.h>
#include <stdlib.h>
#include <string.h>
#include <unistd.h>

enum kind { ALLOC, OPEN, READ, WRITE, KINDS };

static const char *const names[KINDS] = {"alloc", "open", "read", "write"};
static long calls[KINDS];
static int refused = -1;
static long at;
static int is_short;
static int is_ready;

/* Calls that come before the program's own main, as the loader's, are let through and not counted. */
static int is_hit(enum kind kind) {
    if (!is_ready)
        return 0;
    calls[kind]++;
    return kind == refused && calls[kind] == at;
}

static void report(void) {
    const char *path = getenv("COUNTS");
    is_ready = 0;
    if (path == NULL)
        return;
    FILE *file = fopen(path, "w");
    if (file == NULL)
        return;
    for (int kind = 0; kind < KINDS; kind++)
        fprintf(file, "%s %ld\n", names[kind], calls[kind]);
    fclose(file);
}

__attribute__((constructor)) static void prepare(void) {
    const char *what = getenv("REFUSE");
    for (int kind = 0; what != NULL && kind < KINDS; kind++)
        if (strcmp(what, names[kind]) == 0)
            refused = kind;
    at = getenv("AT") == NULL ? 0 : atol(getenv("AT"));
    is_short = getenv("SHORT") != NULL;
    atexit(report);
    is_ready = 1;
}

static void *no_memory(void) {
    errno = ENOMEM;
    return NULL;
}

void *malloc(size_t size) {
    static void *(*next)(size_t);
    if (next == NULL)
        next = (void *(*)(size_t))dlsym(RTLD_NEXT, "malloc");
    return is_hit(ALLOC) ? no_memory() : next(size);
}

void *realloc(void *block, size_t size) {
    static void *(*next)(void *, size_t);
    if (next == NULL)
        next = (void *(*)(void *, size_t))dlsym(RTLD_NEXT, "realloc");
    return is_hit(ALLOC) ? no_memory() : next(block, size);
}

int open(const char *path, int flags, ...) {
    static int (*next)(const char *, int, ...);
    va_list more;
    va_start(more, flags);
    mode_t mode = va_arg(more, mode_t);
    va_end(more);
    if (next == NULL)
        next = (int (*)(const char *, int, ...))dlsym(RTLD_NEXT, "open");
    if (is_hit(OPEN)) {
        errno = EACCES;
        return -1;
    }
    return next(path, flags, mode);
}

ssize_t read(int file, void *bytes, size_t count) {
    static ssize_t (*next)(int, void *, size_t);
    if (next == NULL)
        next = (ssize_t (*)(int, void *, size_t))dlsym(RTLD_NEXT, "read");
    if (is_hit(READ)) {
        errno = EIO;
        return -1;
    }
    return next(file, bytes, is_short && count > 1 ? 1 : count);
}

ssize_t write(int file, const void *bytes, size_t count) {
    static ssize_t (*next)(int, const void *, size_t);
    if (next == NULL)
        next = (ssize_t (*)(int, const void *, size_t))dlsym(RTLD_NEXT, "write");
    if (is_hit(WRITE)) {
        errno = EIO;
        return -1;
    }
    return next(file, bytes, is_short && count > 1 ? 1 : count);
}

ssize_t __write(int file, const void *bytes, size_t count) {
    return write(file, bytes, count);
}
