/* A child that is forked while threads work lanes finds no part of their work, neither in the
 * memory nor on the helpers' stacks, and its own threads can fork. After the call the helpers'
 * stacks are unmapped. src/lanes.c and src/heap.c run over a stand-in for a segment's export. The
 * stand-in leaves marks in both places, only on helpers, and waits for the fork. */
#define _GNU_SOURCE
#include "flags.h"
#include "lanes.h"
#include "stand_ins.h"

#include <pthread.h>
#include <stdatomic.h>
#include <sys/mman.h>
#include <unistd.h>

enum { LANES = 4, SEGMENT = 64, TURNS = 10 };

/* This data is at a stack's top, so that calls begin at other places of a page. */
static _Thread_local volatile char local[THREAD_LOCAL];

static pthread_t caller;
static _Atomic(int) marked, is_forked;

/* A core dump has only the highest page of a helper's stack. The page below the stack has no
 * access. */
static void check_stack(void) {
    size_t page_size = (size_t)sysconf(_SC_PAGESIZE);
    pthread_attr_t attributes;
    void *start;
    size_t size;
    CHECK(pthread_getattr_np(pthread_self(), &attributes) == 0);
    CHECK(pthread_attr_getstack(&attributes, &start, &size) == 0);
    pthread_attr_destroy(&attributes);
    unsigned char *top = (void *)(((uintptr_t)start + size - 1) / page_size * page_size);
    for (unsigned char *page = start; page < top; page += size / 16 / page_size * page_size)
        CHECK(has_flag(page, " dd"));
    CHECK(has_flag(top - 1, " dd") && !has_flag(top, " dd"));
    CHECK(!has_flag((unsigned char *)start - 1, " rd"));
}

static uint8_t work_segment(const struct given_segment *it) {
    if (!pthread_equal(pthread_self(), caller)) {
        char here; /* in no core dump while the stack exists */
        CHECK(is_hidden(&here));
        check_stack();
        leave_marks();
        local[0] = 1;
        it->own->words[5] = *mark;
        marked++;
    }
    while (!is_forked)
        usleep(50);
    return 0;
}

/* Stacks, and the parts that a child reads as zero, are whole pages of any system, up to 64 KiB. */

enum { LARGEST_PAGE = 64 * 1024 };

WRAP(int, mprotect, void *start, size_t size, int rights) {
    CHECK(size % LARGEST_PAGE == 0 || mark == NULL);
    return __real_mprotect(start, size, rights);
}

WRAP(int, madvise, void *start, size_t size, int advice) {
    size_t page = advice == MADV_DONTDUMP ? (size_t)sysconf(_SC_PAGESIZE) : LARGEST_PAGE;
    CHECK(size % page == 0 && (uintptr_t)start % page == 0);
    return __real_madvise(start, size, advice);
}

static uint8_t segment_len(const struct tag_numbers *numbers, uint32_t *segment_size) {
    (void)numbers;
    *segment_size = SEGMENT;
    return 0;
}

static uint8_t begin(const void *inputs, struct argon2_block *first, size_t count) {
    (void)inputs, (void)first, (void)count;
    return 0;
}

static uint8_t end(const void *inputs, const struct argon2_block *last, size_t count) {
    (void)inputs, (void)last, (void)count;
    return 0;
}

static void *call(void *unused) {
    struct task task = {{{2, 0x13, 4 * LANES * SEGMENT, 1, LANES}, 32}, begin, end, NULL, NULL};
    caller = pthread_self();
    CHECK_NUMBER(lanes_work(&task, LANES), 0);
    return unused;
}

static int marks_left(void) {
    return found_in_process("forked_lanes", mark);
}

/* A thread that forks: the child has the thread's stack unchanged. */
static void *fork_here(void *unused) {
    volatile unsigned char depths[16 * 1024];
    for (size_t i = 0; i < sizeof depths; i++)
        depths[i] = (unsigned char)i;
    pid_t child = fork();
    for (size_t i = 0; i < sizeof depths; i++)
        CHECK(depths[i] == (unsigned char)i);
    if (child == 0)
        _exit(0);
    CHECK_NUMBER(status_of(child), 0);
    return unused;
}

/* Forks in as many threads as the call had helpers: they get any stacks that the C library kept. */
static void fork_in_threads(void) {
    pthread_t threads[LANES];
    for (int i = 0; i < LANES; i++)
        CHECK(pthread_create(&threads[i], NULL, fork_here, NULL) == 0);
    for (int i = 0; i < LANES; i++)
        CHECK(pthread_join(threads[i], NULL) == 0);
}

static void be_child(void) {
    CHECK_NUMBER(marks_left(), 0);
    fork_in_threads();
    CHECK_NUMBER(marks_left(), 0);
    _exit(0);
}

/* Returns the number of bytes that the process has mapped. */
static unsigned long mapped(void) {
    unsigned long pages = 0;
    FILE *counts = fopen("/proc/self/statm", "r");
    CHECK(counts != NULL && fscanf(counts, "%lu", &pages) == 1);
    fclose(counts);
    return pages * 4096;
}

int main(void) {
    unsigned long before = 0;
    make_mark();
    for (int turn = 0; turn < TURNS; turn++) {
        pthread_t thread;
        marked = is_forked = 0;
        CHECK(pthread_create(&thread, NULL, call, NULL) == 0);
        while (marked < LANES - 1) /* on all helpers */
            usleep(50);
        CHECK(marks_left() > 0);
        pid_t child = fork();
        if (child == 0)
            be_child();
        is_forked = 1;
        CHECK_NUMBER(status_of(child), 0);
        CHECK(pthread_join(thread, NULL) == 0);
        CHECK_NUMBER(marks_left(), 0);
        fork_in_threads();
        CHECK(turn == 0 || mapped() == before);
        before = mapped();
    }
    return 0;
}
