/* src/lanes.c over stand-ins for the exports and for the heap. The system refuses threads at
 * random, parts return faults, and the caller may pass memory. */
#define _GNU_SOURCE
#include "stand_ins.h"
#include "watched_lanes.h"

static void set_numbers(uint32_t lanes, uint32_t passes, size_t segment) {
    now.numbers = (struct tag_numbers){{2, 0x13, 8 * lanes, passes, lanes}, 32};
    now.segment = segment;
    now.slice = segment * lanes;
}

/* Begins a turn with random numbers, in some turns with the caller's memory for all slices. */
static void begin_turn(bool has_memory) {
    memset((void *)&now, 0, sizeof now);
    set_numbers(1 + random_below(9), 1 + random_below(3), 2 + random_below(6));
    now.caller = pthread_self();
    now.refused_slice = -1;
    now.bad_segment = now.last_segment = UINT64_MAX;
    refusals = random_below(3) == 0 ? random_below(5) : 0;
    if (has_memory) {
        now.callers = calloc(SLICES * now.slice, sizeof(struct argon2_block));
        CHECK(now.callers != NULL);
        for (size_t i = 0; i < SLICES; i++)
            now.slices[i] = now.callers + i * now.slice;
    }
}

/* Tests the answer of a turn, and whether all of its work is done. */
static void try_threads(uint32_t threads, int wanted) {
    int state, before = random_below(2) == 0 ? PTHREAD_CANCEL_ENABLE : PTHREAD_CANCEL_DISABLE;
    size_t size = 0;
    struct task task = {now.numbers, begin, end, &now, now.callers};
    CHECK_NUMBER(lanes_size(&now.numbers, &size), wanted == RIGZUMAL_NO_KIND ? wanted : 0);
    CHECK(size == (wanted == RIGZUMAL_NO_KIND ? 0 : SLICES * now.slice * sizeof *now.callers));
    now.signals = blocked_signals();
    pthread_setcancelstate(before, &state);
    CHECK_NUMBER(lanes_work(&task, threads), wanted);
    CHECK(blocked_signals() == now.signals);
    pthread_setcancelstate(PTHREAD_CANCEL_ENABLE, &state);
    CHECK(state == before);
    CHECK(now.alive == 0 && now.joins == now.starts && now.starts < (int)threads);
    CHECK(refusals > 0 || now.begins == 0 || now.begin_answer != 0 ||
          now.starts == (int)threads - 1);
    CHECK(now.gives == now.takes);
    if (now.callers != NULL) {
        CHECK(now.takes == 0 && is_all(now.callers, 0, size));
        free(now.callers);
    }
}

static void test_order(int turns) {
    for (int turn = 0; turn < turns; turn++) {
        begin_turn(random_below(4) == 0);
        uint32_t threads = 1 + random_below(9), lanes = now.numbers.argon2.lanes,
                 slices = SLICES * now.numbers.argon2.passes;
        pairs = 0;
        try_threads(threads, RIGZUMAL_OK);
        CHECK(now.begins == 1 && now.ends == 1);
        CHECK((uint32_t)now.segments_over == slices * lanes);
        CHECK((uint32_t)pairs == (threads < lanes ? slices * (lanes / 2) : 0));
    }
}

/* The most possible threads, and more passes than eight bits count. */
static void test_large_numbers(void) {
    static const struct { uint32_t lanes, passes; } large[] = {{MOST_LANES, 1}, {2, MANY_PASSES}};
    for (size_t i = 0; i < COUNT(large); i++) {
        begin_turn(false);
        refusals = 0;
        set_numbers(large[i].lanes, large[i].passes, 2);
        try_threads(now.numbers.argon2.lanes, RIGZUMAL_OK);
        CHECK(now.ends == 1 && now.starts == (int)now.numbers.argon2.lanes - 1);
        CHECK((uint32_t)now.segments_over == SLICES * large[i].passes * large[i].lanes);
    }
}

/* More segments than 32 bits count, in a child, which ends with success at a late one. */
static void test_many_segments(void) {
    pid_t child = fork();
    if (child == 0) {
        begin_turn(false);
        set_numbers(4, 1u << 28, 2);
        now.last_segment = 100;
        now.signals = blocked_signals();
        struct task task = {now.numbers, begin, end, &now, NULL};
        lanes_work(&task, 1);
        _exit(1);
    }
    CHECK_NUMBER(status_of(child), 0);
}

/* Signals that the caller blocks stay blocked, and the others stay unblocked. */
static void test_blocked_signals(void) {
    sigset_t some, before;
    sigemptyset(&some);
    sigaddset(&some, SIGUSR2);
    sigaddset(&some, SIGRTMIN + 3);
    pthread_sigmask(SIG_SETMASK, &some, &before);
    test_order(5);
    pthread_sigmask(SIG_SETMASK, &before, NULL);
}

/* Runs in a program whose threads have small stacks, of 64 KiB or the least that the system allows.
 */
static void test_small_stacks(void) {
    size_t least = (size_t)__real_sysconf(_SC_THREAD_STACK_MIN);
    pthread_attr_t attributes;
    CHECK(pthread_getattr_default_np(&attributes) == 0);
    CHECK(pthread_attr_setstacksize(&attributes, least > 64 * 1024 ? least : 64 * 1024) == 0);
    CHECK(pthread_setattr_default_np(&attributes) == 0);
    test_order(5);
    CHECK(pthread_attr_setstacksize(&attributes, 1024 * 1024) == 0);
    CHECK(pthread_setattr_default_np(&attributes) == 0);
    pthread_attr_destroy(&attributes);
}

/* After a segment's fault no thread works a later one. After any fault the memory is cleared and
 * freed. */
static void test_faults(int turns) {
    for (int turn = 0; turn < turns; turn++) {
        begin_turn(turn % 2 == 0);
        uint32_t lanes = now.numbers.argon2.lanes,
                 segments = SLICES * now.numbers.argon2.passes * lanes;
        now.bad_segment = random_below(segments);
        try_threads(1 + random_below(9), PLACE);
        for (uint64_t next = now.bad_segment / lanes * lanes + lanes; next < segments; next++)
            CHECK(now.begun[next] == 0);
        CHECK(now.ends == 0);
        begin_turn(false);
        now.end_answer = RIGZUMAL_MEMORY;
        try_threads(1 + random_below(9), RIGZUMAL_MEMORY);
        begin_turn(turn % 2 == 1);
        now.begin_answer = RIGZUMAL_INPUT_SIZE;
        try_threads(1 + random_below(9), RIGZUMAL_INPUT_SIZE);
        CHECK(now.begun[0] == 0 && now.ends == 0);
        begin_turn(false);
        now.refused_slice = (int)random_below(SLICES);
        try_threads(1 + random_below(9), RIGZUMAL_MEMORY);
        CHECK(now.begins == 0);
        begin_turn(false);
        now.numbers.argon2.kind = 3;
        try_threads(1 + random_below(9), RIGZUMAL_NO_KIND);
        CHECK(now.takes == 0);
    }
}

static uint32_t threads_for(uint32_t lanes, uint32_t memory, uint32_t allowed) {
    struct tag_numbers numbers = {{2, 0x13, memory, 1, lanes}, 32};
    return lanes_useful_threads(&numbers, allowed);
}

static void test_useful_threads(void) {
    enum { ENOUGH = 65536 };
    CHECK(threads_for(4, ENOUGH, 4) == 4 && threads_for(4, ENOUGH, 3) == 3);
    CHECK(threads_for(2, ENOUGH, 9) == 2 && threads_for(1, ENOUGH, 9) == 1);
    CHECK(threads_for(4, ENOUGH, 0) == 1 && threads_for(4, ENOUGH, 1) == 1);
    CHECK(threads_for(0, ENOUGH, 4) == 1);
    CHECK(threads_for(4, 4096, 4) == 4 && threads_for(4, 4095, 4) == 1);
    CHECK(threads_for(20, ENOUGH, UINT32_MAX) == 16);
    processors = 300;
    CHECK(threads_for(UINT32_MAX, UINT32_MAX, UINT32_MAX) == 255);
    processors = 1;
    CHECK(threads_for(4, ENOUGH, 4) == 1);
    processors = 0; /* the system reports none */
    CHECK(threads_for(9, ENOUGH, 9) == 5 && threads_for(4, ENOUGH, 4) == 4);
    online = -1;
    CHECK(threads_for(9, ENOUGH, 9) == 1);
    processors = 16;
}

/* Asks the system for all signals: the C library reserves some, and so does qemu-user. */
static void find_all_signals(void) {
    sigset_t all, before;
    sigfillset(&all);
    CHECK(pthread_sigmask(SIG_SETMASK, &all, &before) == 0);
    all_signals = blocked_signals();
    CHECK(pthread_sigmask(SIG_SETMASK, &before, NULL) == 0 && blocked_signals() != all_signals);
}

/* The arguments: the number of turns, and whether to look for marks, which no sanitizer allows. */
int main(int given, char **words) {
    CHECK(given >= 2);
    int turns = atoi(words[1]);
    find_all_signals();
    make_mark();
    test_useful_threads();
    test_order(turns);
    test_large_numbers();
    test_many_segments();
    test_blocked_signals();
    test_small_stacks();
    test_faults(turns / 5);
    if (given > 2)
        CHECK_NUMBER(found_in_process("lanes", mark), 0);
    return 0;
}
