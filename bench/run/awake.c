/* Keeps one processor from sleeping: awake NUMBER. It is of the idle class, and so gives way to any other process. */
#define _GNU_SOURCE
#include <sched.h>
#include <stdlib.h>

int main(int count, char **words) {
    cpu_set_t one;
    CPU_ZERO(&one);
    CPU_SET(count > 1 ? atoi(words[1]) : 0, &one);
    struct sched_param none = {0};
    if (sched_setaffinity(0, sizeof one, &one) || sched_setscheduler(0, SCHED_IDLE, &none)) return 1;
    for (;;) {
#if defined(__x86_64__)
        __asm__ volatile("pause");
#else
        __asm__ volatile("" ::: "memory");
#endif
    }
}
