/* Makes the call of one kind with one number fail: FAIL_KIND is alloc, open, read or write, FAIL_AT its number from 0.
   It is loaded before the program (LD_PRELOAD), and counts from the first call after main's own set-up, those of all
   threads together. Where FAIL_SEEN names a file, the file is made as the call fails. */
#define _GNU_SOURCE
#include <dlfcn.h>
#include <errno.h>
#include <fcntl.h>
#include <stdarg.h>
#include <stdatomic.h>
#include <stdlib.h>
#include <string.h>
#include <sys/types.h>
#include <unistd.h>

static atomic_long counts[4];

static void tell(void) {
    static int (*real)(const char *, int, mode_t);
    const char *seen = getenv("FAIL_SEEN");
    if (!seen) return;
    if (!real) real = dlsym(RTLD_NEXT, "open");
    int fd = real(seen, O_CREAT | O_WRONLY, 0600);
    if (fd >= 0) close(fd);
}

static int fails(int kind, const char *name) {
    const char *asked = getenv("FAIL_KIND");
    const char *at = getenv("FAIL_AT");
    if (!asked || !at || strcmp(asked, name)) return 0;
    if (atomic_fetch_add(&counts[kind], 1) != atol(at)) return 0;
    tell();
    return 1;
}

void *malloc(size_t size) {
    static void *(*real)(size_t);
    if (!real) real = dlsym(RTLD_NEXT, "malloc");
    return fails(0, "alloc") ? NULL : real(size);
}

void *realloc(void *old, size_t size) {
    static void *(*real)(void *, size_t);
    if (!real) real = dlsym(RTLD_NEXT, "realloc");
    return fails(0, "alloc") ? NULL : real(old, size);
}

int posix_memalign(void **out, size_t align, size_t size) {
    static int (*real)(void **, size_t, size_t);
    if (!real) real = dlsym(RTLD_NEXT, "posix_memalign");
    return fails(0, "alloc") ? ENOMEM : real(out, align, size);
}

int open(const char *name, int flags, ...) {
    static int (*real)(const char *, int, mode_t);
    if (!real) real = dlsym(RTLD_NEXT, "open");
    va_list rest;
    va_start(rest, flags);
    mode_t mode = flags & O_CREAT ? va_arg(rest, mode_t) : 0;
    va_end(rest);
    if (fails(1, "open")) { errno = EACCES; return -1; }
    return real(name, flags, mode);
}

int open64(const char *name, int flags, ...) {
    static int (*real)(const char *, int, mode_t);
    if (!real) real = dlsym(RTLD_NEXT, "open64");
    va_list rest;
    va_start(rest, flags);
    mode_t mode = flags & O_CREAT ? va_arg(rest, mode_t) : 0;
    va_end(rest);
    if (fails(1, "open")) { errno = EACCES; return -1; }
    return real(name, flags, mode);
}

ssize_t read(int fd, void *to, size_t size) {
    static ssize_t (*real)(int, void *, size_t);
    if (!real) real = dlsym(RTLD_NEXT, "read");
    if (fails(2, "read")) { errno = EIO; return -1; }
    return real(fd, to, size);
}

ssize_t write(int fd, const void *from, size_t size) {
    static ssize_t (*real)(int, const void *, size_t);
    if (!real) real = dlsym(RTLD_NEXT, "write");
    if (fd == 1 && fails(3, "write")) { errno = ENOSPC; return -1; }
    return real(fd, from, size);
}
