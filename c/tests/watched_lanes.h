/* Stand-ins for the proved parts and for the heap, below src/lanes.c. The stand-ins rest at random,
 * and check their inputs, order, number and thread by the rules of src/tag_parts.h. */
#pragma once

#include "lanes.h"

#include "heap.h"
#include "process.h"
#include "stand_ins.h"

#include <errno.h>
#include <pthread.h>
#include <sched.h>
#include <signal.h>
#include <stdatomic.h>
#include <stdbool.h>
#include <unistd.h>

enum {
    SLICES = 4,
    MOST_LANES = 255,
    MANY_PASSES = 300,
    MOST_SEGMENTS = SLICES * MANY_PASSES * 2,
    PLACE = 27, /* the fault of a bad segment */
    LEAST_STACK = 1024 * 1024,
    STAMPS = 2
};

/* The running call. */
static struct watched {
    struct tag_numbers numbers;
    size_t segment, slice; /* in blocks */
    pthread_t caller;
    struct argon2_block *slices[SLICES];
    struct argon2_block *callers; /* the caller's memory, or null */
    uint64_t signals;             /* those that the caller's thread blocks */
    int begin_answer, end_answer, refused_slice;
    uint64_t bad_segment, last_segment;
    _Atomic(int) takes, gives, begins, ends, starts, joins, alive;
    _Atomic(int) begun[MOST_SEGMENTS];
    _Atomic(int) segments_over, has_fault, child_looks;
} now;

static uint32_t refusals;   /* of four threads */
static int processors = 16; /* those that a thread may run on; 0: the system reports none */
static long online = 5;
static uint64_t all_signals; /* those that a program can block */

/* The stand-ins' counts order no memory accesses, so that the sanitizer of threads sees only the
 * order of src/lanes.c. */

static int count(_Atomic(int) *counter) {
    return atomic_fetch_add_explicit(counter, 1, memory_order_relaxed);
}

static int seen(_Atomic(int) *counter) {
    return atomic_load_explicit(counter, memory_order_relaxed);
}

static uint32_t random_below(uint32_t bound) {
    static _Atomic(uint32_t) state = 1;
    uint32_t it = atomic_fetch_add_explicit(&state, 2654435761u, memory_order_relaxed);
    it = (it ^ it >> 15) * 2246822519u;
    it = (it ^ it >> 13) * 3266489917u;
    return (it ^ it >> 16) % bound;
}

static void rest(void) {
    if (random_below(3) == 0)
        usleep(random_below(300));
}

static int is_caller(void) {
    return pthread_equal(pthread_self(), now.caller);
}

/* Returns the signals that this thread blocks, a bit for each. */
static uint64_t blocked_signals(void) {
    sigset_t blocked;
    uint64_t bits;
    CHECK(pthread_sigmask(SIG_SETMASK, NULL, &blocked) == 0);
    memcpy(&bits, &blocked, sizeof bits);
    return bits;
}

static void check_all_are_blocked(void) {
    CHECK(blocked_signals() == all_signals);
}

/* Whether each block of a row has this stamp. */
static int are_stamped(const struct argon2_block *blocks, size_t count, uint64_t stamp) {
    for (size_t i = 0; i < count; i++)
        if (blocks[i].words[0] != stamp || blocks[i].words[127] != stamp)
            return 0;
    return 1;
}

static void stamp(struct argon2_block *blocks, size_t count, uint64_t stamp) {
    for (size_t i = 0; i < count; i++)
        blocks[i].words[0] = blocks[i].words[127] = stamp;
}

/* Returns the stamp of the last work on a slice: number g of all slices, or none. */
static uint64_t stamp_of(int64_t g) {
    return g >= 0 ? (uint64_t)g + STAMPS : g == -SLICES ? 1 : 0; /* begin stamps the first slice */
}

void *heap_take_zeros(size_t size) {
    CHECK(is_caller() && seen(&now.begins) == 0 && now.callers == NULL);
    CHECK(size == now.slice * sizeof(struct argon2_block) && now.takes < SLICES);
    if (now.takes == now.refused_slice)
        return NULL;
    void *taken = calloc(1, size);
    CHECK(taken != NULL);
    now.slices[now.takes++] = taken;
    return taken;
}

uint64_t process_number(void) {
    return (uint64_t)getpid();
}

/* lanes.c calls this once no handler can fork before the wait. */
void process_end_child_of(uint64_t number) {
    CHECK(number == process_number());
    check_all_are_blocked();
    count(&now.child_looks);
}

void heap_give_zeros(void *start) {
    CHECK(is_caller() && now.alive == 0);
    CHECK(is_all(start, 0, now.slice * sizeof(struct argon2_block)));
    now.gives++;
    free(start);
}

/* A task's begin and end: its inputs are the running call. */

static uint8_t begin(const void *inputs, struct argon2_block *first, size_t blocks) {
    CHECK(inputs == &now && is_caller() && count(&now.begins) == 0 && now.starts == 0);
    CHECK(now.takes == (now.callers == NULL ? SLICES : 0));
    CHECK(first == now.slices[0] && blocks == now.slice);
    CHECK(are_stamped(first, blocks, 0));
    if (now.begin_answer == 0)
        stamp(first, blocks, stamp_of(-SLICES));
    return (uint8_t)now.begin_answer;
}

/* Each earlier slice has its stamp, and the segment's own blocks have that of the pass before. */
static void check_stamps(int64_t g, const struct given_segment *it) {
    for (int i = 0; i < SLICES - 1; i++)
        CHECK(are_stamped(it->earlier[i].blocks, now.slice, stamp_of(g - SLICES + 1 + i)));
    CHECK(are_stamped(it->own, now.segment, stamp_of(g - SLICES)));
}

/* The caller's thread is unchanged, except that it can't be cancelled. */
static void look_at_thread(void) {
    if (!is_caller()) {
        leave_marks();
        return;
    }
    int state;
    pthread_setcancelstate(PTHREAD_CANCEL_DISABLE, &state);
    CHECK(state == PTHREAD_CANCEL_DISABLE && blocked_signals() == now.signals);
}

static uint8_t work_segment(const struct given_segment *it) {
    const struct segment_index *index = it->index;
    CHECK(memcmp(it->numbers, &now.numbers, sizeof now.numbers) == 0);
    CHECK(index->pass < now.numbers.argon2.passes && index->slice < SLICES);
    CHECK(index->lane < now.numbers.argon2.lanes);
    CHECK(it->own == now.slices[index->slice] + index->lane * now.segment);
    CHECK(it->own_count == now.segment);
    for (uint32_t i = 0; i < SLICES - 1; i++) {
        CHECK(it->earlier[i].blocks == now.slices[(index->slice + 1 + i) % SLICES]);
        CHECK(it->earlier[i].count == now.slice);
    }
    int64_t g = (int64_t)SLICES * index->pass + index->slice;
    uint64_t number = (uint64_t)g * now.numbers.argon2.lanes + index->lane;
    CHECK(count(&now.begun[number]) == 0);
    CHECK(seen(&now.begins) == 1 && seen(&now.ends) == 0);
    CHECK(seen(&now.segments_over) >= g * (int64_t)now.numbers.argon2.lanes);
    check_stamps(g, it);
    look_at_thread();
    rest();
    check_stamps(g, it);
    if (number == now.last_segment)
        _exit(0);
    if (number == now.bad_segment) {
        count(&now.has_fault);
        return PLACE;
    }
    stamp(it->own, it->own_count, stamp_of(g));
    count(&now.segments_over);
    rest();
    return 0;
}

static uint8_t segment_len(const struct tag_numbers *numbers, uint32_t *segment_size) {
    if (numbers->argon2.kind > 2)
        return RIGZUMAL_NO_KIND;
    *segment_size = (uint32_t)now.segment;
    return 0;
}

static uint8_t end(const void *inputs, const struct argon2_block *last, size_t blocks) {
    uint64_t all = (uint64_t)SLICES * now.numbers.argon2.passes * now.numbers.argon2.lanes;
    CHECK(inputs == &now && is_caller() && count(&now.ends) == 0 && !seen(&now.has_fault));
    CHECK(seen(&now.segments_over) == (int64_t)all);
    CHECK(last == now.slices[SLICES - 1] && blocks == now.slice);
    for (int turn = 0; turn < 2; turn++) {
        CHECK(are_stamped(last, blocks, stamp_of((int64_t)SLICES * now.numbers.argon2.passes - 1)));
        rest();
    }
    return (uint8_t)now.end_answer;
}

/* After a fault the thread that woke the others rests, so that its later work comes too late. */
WRAP(int, pthread_mutex_unlock, pthread_mutex_t *lock) {
    int answer = __real_pthread_mutex_unlock(lock);
    if (seen(&now.has_fault))
        usleep(500);
    return answer;
}

static struct start {
    void *(*run)(void *);
    void *given;
} starting[256];

static void *run_counted(void *given) {
    struct start *start = given;
    check_all_are_blocked();
    void *result = start->run(start->given);
    usleep(200);
    now.alive--;
    return result;
}

WRAP(int, pthread_create, pthread_t *thread, const pthread_attr_t *attributes, void *(*run)(void *),
     void *given) {
    if (random_below(4) < refusals)
        return EAGAIN;
    size_t stack_size;
    CHECK(is_caller() && now.begins == 1 && now.starts < 254);
    CHECK(pthread_attr_getstacksize(attributes, &stack_size) == 0 && stack_size >= LEAST_STACK);
    struct start *start = &starting[now.starts++];
    *start = (struct start){run, given};
    now.alive++;
    return __real_pthread_create(thread, attributes, run_counted, start);
}

WRAP(int, pthread_cond_wait, pthread_cond_t *more, pthread_mutex_t *lock) {
    check_all_are_blocked();
    CHECK(seen(&now.child_looks) > 0);
    return __real_pthread_cond_wait(more, lock);
}

WRAP(int, pthread_join, pthread_t thread, void **result) {
    check_all_are_blocked();
    now.joins++;
    return __real_pthread_join(thread, result);
}

WRAP(int, sched_getaffinity, pid_t process, size_t size, cpu_set_t *set) {
    if (processors == 0)
        return -1;
    CHECK(process == 0 && size == sizeof *set);
    CPU_ZERO(set);
    for (int i = 0; i < processors; i++)
        CPU_SET(i, set);
    return 0;
}

WRAP(long, sysconf, int name) {
    return name == _SC_NPROCESSORS_ONLN ? online : __real_sysconf(name);
}
