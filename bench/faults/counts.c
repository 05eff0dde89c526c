/* Counts the program's allocations and the words that it draws, and writes both numbers into the file COUNTS when the
   program ends. Where DRAWN is said, each byte that is drawn is this number. It is loaded before the program
   (LD_PRELOAD). */
#define _GNU_SOURCE
#include <dlfcn.h>
#include <fcntl.h>
#include <stdio.h>
#include <stdlib.h>
#include <string.h>
#include <sys/syscall.h>
#include <unistd.h>

static long allocations, draws;

void *malloc(size_t size) {
    static void *(*real)(size_t);
    if (!real) real = dlsym(RTLD_NEXT, "malloc");
    __atomic_fetch_add(&allocations, 1, __ATOMIC_SEQ_CST);
    return real(size);
}

void *realloc(void *old, size_t size) {
    static void *(*real)(void *, size_t);
    if (!real) real = dlsym(RTLD_NEXT, "realloc");
    __atomic_fetch_add(&allocations, 1, __ATOMIC_SEQ_CST);
    return real(old, size);
}

int posix_memalign(void **out, size_t align, size_t size) {
    static int (*real)(void **, size_t, size_t);
    if (!real) real = dlsym(RTLD_NEXT, "posix_memalign");
    __atomic_fetch_add(&allocations, 1, __ATOMIC_SEQ_CST);
    return real(out, align, size);
}

int getentropy(void *to, size_t size) {
    static int (*real)(void *, size_t);
    if (!real) real = dlsym(RTLD_NEXT, "getentropy");
    const char *drawn = getenv("DRAWN");
    __atomic_fetch_add(&draws, 1, __ATOMIC_SEQ_CST);
    if (!drawn) return real(to, size);
    memset(to, atoi(drawn), size);
    return 0;
}

__attribute__((destructor)) static void tell(void) {
    const char *name = getenv("COUNTS");
    char line[64];
    int file = name ? open(name, O_WRONLY | O_CREAT | O_TRUNC, 0600) : -1;
    if (file < 0) return;
    write(file, line, snprintf(line, sizeof line, "%ld %ld\n", allocations, draws));
    close(file);
}

/* The program ends by this call, behind which no destructor runs. */
void _exit(int status) {
    tell();
    syscall(SYS_exit_group, status);
    __builtin_unreachable();
}
