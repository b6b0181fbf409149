/* Replaces calls of the C library: getrandom acts as a test sets it. Of four threads this many are
 * refused, and the others are counted. The machine seems to have sixteen processors. */
#define _GNU_SOURCE
#include "check.h"

#include <errno.h>
#include <pthread.h>
#include <sched.h>
#include <sys/types.h>

ssize_t (*drawn)(void *to, size_t size, unsigned flags);
unsigned refusals;
int started;

WRAP(ssize_t, getrandom, void *to, size_t size, unsigned flags) {
    return drawn == NULL ? __real_getrandom(to, size, flags) : drawn(to, size, flags);
}

WRAP(int, pthread_create, pthread_t *thread, const pthread_attr_t *attributes, void *(*run)(void *),
     void *given) {
    if ((unsigned)rand() / 8 % 4 < refusals)
        return EAGAIN;
    started++;
    return __real_pthread_create(thread, attributes, run, given);
}

WRAP(int, sched_getaffinity, pid_t process, size_t size, cpu_set_t *set) {
    (void)process, (void)size;
    CPU_ZERO(set);
    for (int i = 0; i < 16; i++)
        CPU_SET(i, set);
    return 0;
}
