/* Replaces a file of the program that it is preloaded to, once, just before the program opens it or
 * reads from it. The environment has the file's path in SWAP_OLD, that of what takes its place in
 * SWAP_NEW, and in SWAP_AT the call before which it does: `open` or `read`. */
#define _GNU_SOURCE
#include <dlfcn.h>
#include <fcntl.h>
#include <stdarg.h>
#include <stdio.h>
#include <stdlib.h>
#include <string.h>
#include <unistd.h>

static const char *last_name(const char *path) {
    const char *slash = strrchr(path, '/');
    return slash == NULL ? path : slash + 1;
}

static void swap(const char *at) {
    static int done;
    if (done || strcmp(getenv("SWAP_AT"), at) != 0)
        return;
    done = 1;
    const char *old = getenv("SWAP_OLD");
    /* A directory does not take the place of a file. */
    if (unlink(old) != 0)
        rmdir(old);
    if (rename(getenv("SWAP_NEW"), old) != 0)
        abort();
}

static void swap_if_named(const char *path) {
    if (strcmp(last_name(path), last_name(getenv("SWAP_OLD"))) == 0)
        swap("open");
}

int open(const char *path, int flags, ...) {
    int (*real)(const char *, int, ...) = (int (*)(const char *, int, ...))dlsym(RTLD_NEXT, "open");
    va_list rest;
    va_start(rest, flags);
    int mode = va_arg(rest, int);
    va_end(rest);
    swap_if_named(path);
    return real(path, flags, mode);
}

int openat(int folder, const char *path, int flags, ...) {
    int (*real)(int, const char *, int, ...) =
        (int (*)(int, const char *, int, ...))dlsym(RTLD_NEXT, "openat");
    va_list rest;
    va_start(rest, flags);
    int mode = va_arg(rest, int);
    va_end(rest);
    swap_if_named(path);
    return real(folder, path, flags, mode);
}

ssize_t pread(int file, void *bytes, size_t count, off_t offset) {
    ssize_t (*real)(int, void *, size_t, off_t) =
        (ssize_t(*)(int, void *, size_t, off_t))dlsym(RTLD_NEXT, "pread");
    swap("read");
    return real(file, bytes, count, offset);
}
