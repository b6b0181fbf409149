/* The number of a process has two halves. The lower half is the system's number, which alone isn't
 * enough: a child has its parent's number if each is the first of a PID namespace. The upper half
 * is in a page that a child reads as zeros. On a system without such pages the half is 0. */
#define _GNU_SOURCE
#include "process.h"

#include <stdatomic.h>
#include <stdlib.h>
#include <sys/mman.h>
#include <unistd.h>

enum { LARGEST_PAGE = 64 * 1024 }; /* of any system */

static unsigned char room[2 * LARGEST_PAGE]; /* has that page, wherever it begins */
static _Atomic(uint32_t) latest;             /* the last number, which a child has too */

/* Returns the page, which is 0 before the first call, or null on a system without such pages. The
 * first call asks the system, since a program's own constructor may hash before one of this file
 * runs. The first answer holds for each thread. */
static _Atomic(uint32_t) *wiped_page(void) {
    enum { UNKNOWN, WIPED, KEPT };
    static _Atomic(int) known = UNKNOWN;
    void *page = room + (LARGEST_PAGE - (uintptr_t)room % LARGEST_PAGE) % LARGEST_PAGE;
    int state = atomic_load(&known);
    if (state == UNKNOWN) {
        int answer = madvise(page, LARGEST_PAGE, MADV_WIPEONFORK) == 0 ? WIPED : KEPT;
        if (atomic_compare_exchange_strong(&known, &state, answer))
            state = answer;
    }
    return state == WIPED ? page : NULL;
}

static uint32_t wiped_number(void) {
    _Atomic(uint32_t) *wiped = wiped_page();
    if (wiped == NULL)
        return 0;
    uint32_t number = atomic_load(wiped);
    if (number != 0)
        return number;
    uint32_t next = atomic_fetch_add(&latest, 1) + 1;
    return atomic_compare_exchange_strong(wiped, &number, next) ? next : number;
}

uint64_t process_number(void) {
    return (uint64_t)wiped_number() << 32 | (uint32_t)getpid();
}

void process_end_child_of(uint64_t number) {
    static const char said[] = "rigzumal: a forked child continued its parent's call\n";
    if (process_number() == number)
        return;
    if (write(STDERR_FILENO, said, sizeof said - 1) < 0) {
        /* the process ends all the same */
    }
    abort();
}
