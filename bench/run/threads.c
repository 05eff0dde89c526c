/* Makes threads fail: THREADS_AT_MOST says how many may be made. It is loaded before the program (LD_PRELOAD). */
#define _GNU_SOURCE
#include <dlfcn.h>
#include <errno.h>
#include <pthread.h>
#include <stdlib.h>

static long made;

int pthread_create(pthread_t *thread, const pthread_attr_t *with, void *(*body)(void *), void *given) {
    static int (*real)(pthread_t *, const pthread_attr_t *, void *(*)(void *), void *);
    if (!real) real = dlsym(RTLD_NEXT, "pthread_create");
    const char *most = getenv("THREADS_AT_MOST");
    if (most && __sync_fetch_and_add(&made, 1) >= atol(most)) return EAGAIN;
    return real(thread, with, body, given);
}
