/* Each kept area has one thread at a time, none is lost, and the heap keeps none over the bound.
 * This test includes src/heap.c with a rest before each atomic step, so that other threads run
 * between the steps. */
#define _GNU_SOURCE
#include "check.h"

#include <pthread.h>
#include <stdatomic.h>
#include <sys/mman.h>
#include <unistd.h>

static void rest(void);

#undef atomic_load
#undef atomic_exchange
#undef atomic_compare_exchange_strong
#undef atomic_compare_exchange_weak
#undef atomic_fetch_sub

#define RESTED(step) (rest(), (step))

#define atomic_load(at) RESTED(atomic_load_explicit(at, memory_order_seq_cst))
#define atomic_exchange(at, value) RESTED(atomic_exchange_explicit(at, value, memory_order_seq_cst))
#define atomic_compare_exchange_strong(at, old, value)                                             \
    RESTED(atomic_compare_exchange_strong_explicit(at, old, value, memory_order_seq_cst,           \
                                                   memory_order_seq_cst))
#define atomic_compare_exchange_weak atomic_compare_exchange_strong
#define atomic_fetch_sub(at, value)                                                                \
    RESTED(atomic_fetch_sub_explicit(at, value, memory_order_seq_cst))

#include "../src/heap.c"

enum { THREADS = 8, TURNS = 150, SIZE = 64 * KIB, KEPT = 64 * MIB };

static _Atomic(size_t) mapped;

/* The steps of this thread before the bound is lowered, or before a call uses an area; or -1. */
static _Thread_local int steps_to_lowering = -1, steps_to_call = -1;

static void rest(void) {
    if (steps_to_lowering >= 0 && steps_to_lowering-- == 0)
        heap_keep(0);
    if (steps_to_call >= 0 && steps_to_call-- == 0)
        rattle_dealloc(rattle_alloc(SIZE, 8).start);
    usleep(20);
}

WRAP(void *, mmap, void *at, size_t size, int protection, int flags, int file, off_t offset) {
    mapped += size;
    return __real_mmap(at, size, protection, flags, file, offset);
}

/* Whether an area stays cleared while this thread rests: no other thread has it. */
static bool is_nobodys(const unsigned char *area) {
    bool is_cleared = is_all(area, 0, SIZE);
    usleep(200);
    return is_cleared && is_all(area, 0, SIZE);
}

WRAP(int, munmap, void *start, size_t size) {
    CHECK(size != AREA || is_nobodys(start));
    mapped -= size;
    return __real_munmap(start, size);
}

WRAP(int, madvise, void *start, size_t size, int advice) {
    CHECK(advice != MADV_FREE || is_nobodys(start));
    return __real_madvise(start, size, advice);
}

/* Trims the kept areas while other threads use them: the heap unmaps each once. */
static void *give_kept(void *unused) {
    for (int turn = 0; turn < TURNS; turn++) {
        size_t size = heap_trim();
        CHECK(size % AREA == 0 && size <= KEPT);
    }
    return unused;
}

static void *work(void *number) {
    int byte = *(const int *)number;
    for (int turn = 0; turn < TURNS; turn++) {
        unsigned char *block = rattle_alloc(SIZE, 8).start;
        CHECK(is_all(block, 0, SIZE));
        memset(block, byte, SIZE);
        sched_yield();
        CHECK(is_all(block, byte, SIZE));
        rattle_dealloc(block);
    }
    return NULL;
}

/* The heap doesn't keep an area if the bound is lowered meanwhile, before any step. */
static void lower_bound(void) {
    for (int step = 0; steps_to_lowering < 0; step++) {
        heap_keep(KEPT);
        void *block = rattle_alloc(SIZE, 8).start;
        steps_to_lowering = step;
        rattle_dealloc(block);
        CHECK(steps_to_lowering < 0 ? mapped == 0 : step > 4); /* to the last step */
    }
}

/* The heap doesn't keep the area of a call that begins and ends while the bound is lowered. */
static void call_while_lowered(void) {
    int step = 0;
    for (; steps_to_call < 0; step += PLACES / 8) {
        heap_keep(KEPT);
        steps_to_call = step;
        heap_keep(0);
        CHECK(mapped == 0);
    }
    steps_to_call = -1;
    CHECK(step > PLACES);
}

int main(void) {
    pthread_t threads[THREADS], giver;
    int numbers[THREADS];
    for (int i = 0; i < THREADS; i++) {
        numbers[i] = i + 1;
        CHECK(pthread_create(&threads[i], NULL, work, &numbers[i]) == 0);
    }
    CHECK(pthread_create(&giver, NULL, give_kept, NULL) == 0);
    for (int i = 0; i < THREADS; i++)
        CHECK(pthread_join(threads[i], NULL) == 0);
    CHECK(pthread_join(giver, NULL) == 0);
    CHECK(mapped <= KEPT);
    CHECK(heap_trim() <= KEPT && mapped == 0);
    call_while_lowered();
    lower_bound();
    return 0;
}
