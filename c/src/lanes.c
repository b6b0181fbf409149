/* Calls the parts in the order that tag_parts.h requires, on several threads.
 *
 * Threads work the segments of a slice in groups: each segment alone, or two of neighbouring lanes
 * if the threads are fewer than the lanes, since two at once take less time than one after the
 * other. Groups have numbers, slice by slice and pass by pass. A thread draws the next number,
 * waits until all groups of the slices before are done, works its own group, and draws again. One
 * thread therefore works each group, once. The caller's thread computes the tag, and then all
 * threads clear the memory in the same way, segment by segment. */
#define _GNU_SOURCE
#include "lanes.h"

#include "heap.h"
#include "process.h"
#include "secrets.h"

#include <pthread.h>
#include <sched.h>
#include <signal.h>
#include <stdatomic.h>
#include <stdbool.h>
#include <sys/mman.h>
#include <unistd.h>

enum { SLICES = 4, MOST_HELPERS = 254, LEAST_STACK = 1024 * 1024 };

/* The largest page of any system, such as some for ARM64; the size of any smaller page divides it.
 * */
enum { PAGE = 64 * 1024 };

/* The part of a helper's stack that a child doesn't get: the pages to clear, and one for the gap
 * above them. */
enum { HIDDEN_STACK = (CLEARED_STACK + PAGE - 1) / PAGE * PAGE + PAGE };

/* In KiB: from this memory on, threads speed up four lanes on an idle machine. */
#ifndef LEAST_SHARED_MEMORY
#define LEAST_SHARED_MEMORY 4096
#endif

struct run {
    const struct task *task;
    uint64_t process; /* that began the run */
    struct argon2_block *slices[SLICES];
    size_t segment_size, slice_size; /* in blocks */
    uint32_t lanes_of_group;         /* one or two, but one for the last of an odd number */
    uint32_t groups_of_slice;
    uint64_t groups; /* the number of all groups */
    _Atomic(uint64_t) next_group, next_cleared;
    _Atomic(uint64_t) done; /* groups, and at last the tag */
    _Atomic(uint8_t) fault;
    pthread_mutex_t lock;
    pthread_cond_t more_done;
};

/* Blocks all signals, and returns the set of the signals blocked before. A thread that waits for
 * others handles no signal: a handler may fork, and in the child no thread would end the wait. A
 * child that a handler forked earlier ends here. */
static sigset_t block_signals(const struct run *run) {
    sigset_t all, before;
    sigfillset(&all);
    pthread_sigmask(SIG_SETMASK, &all, &before);
    process_end_child_of(run->process);
    return before;
}

/* Waits until this many groups are done. */
static void await(struct run *run, uint64_t done) {
    if (atomic_load(&run->done) >= done)
        return;
    sigset_t before = block_signals(run);
    pthread_mutex_lock(&run->lock);
    while (atomic_load(&run->done) < done)
        pthread_cond_wait(&run->more_done, &run->lock);
    pthread_mutex_unlock(&run->lock);
    pthread_sigmask(SIG_SETMASK, &before, NULL);
}

/* Counts one more group, and wakes threads that may wait for it: for the end of a slice, or for the
 * tag. */
static void count_done(struct run *run) {
    uint64_t done = atomic_fetch_add(&run->done, 1) + 1;
    if (done <= run->groups && done % run->groups_of_slice != 0)
        return;
    sigset_t before = block_signals(run);
    pthread_mutex_lock(&run->lock);
    pthread_cond_broadcast(&run->more_done);
    pthread_mutex_unlock(&run->lock);
    pthread_sigmask(SIG_SETMASK, &before, NULL);
}

static void note_fault(struct run *run, uint8_t fault) {
    if (fault != RIGZUMAL_OK)
        atomic_store(&run->fault, fault);
}

static uint8_t work_group(const struct run *run, uint64_t number) {
    uint64_t turn = number / run->groups_of_slice;
    uint32_t lane = (uint32_t)(number % run->groups_of_slice) * run->lanes_of_group;
    struct segment_index index = {(uint32_t)(turn / SLICES), (uint32_t)(turn % SLICES), lane};
    const struct argon2_block *oldest = run->slices[(index.slice + 1) % SLICES];
    const struct argon2_block *middle = run->slices[(index.slice + 2) % SLICES];
    const struct argon2_block *newest = run->slices[(index.slice + 3) % SLICES];
    struct argon2_block *own = run->slices[index.slice] + lane * run->segment_size;
    if (run->lanes_of_group == 2 && lane + 1 < run->task->numbers.argon2.lanes)
        return CALL(cred_argon2_two_segments, &run->task->numbers, &index, oldest, run->slice_size,
                    middle, run->slice_size, newest, run->slice_size, own, 2 * run->segment_size);
    return CALL(cred_argon2_segment, &run->task->numbers, &index, oldest, run->slice_size, middle,
                run->slice_size, newest, run->slice_size, own, run->segment_size);
}

/* Works groups until threads have drawn all. After a fault the function only counts the groups. */
static void work_groups(struct run *run) {
    for (;;) {
        uint64_t number = atomic_fetch_add(&run->next_group, 1);
        if (number >= run->groups)
            return;
        await(run, number - number % run->groups_of_slice);
        if (atomic_load(&run->fault) == RIGZUMAL_OK)
            note_fault(run, work_group(run, number));
        count_done(run);
    }
}

static void make_tag(struct run *run) {
    await(run, run->groups);
    if (atomic_load(&run->fault) == RIGZUMAL_OK)
        note_fault(run,
                   run->task->end(run->task->inputs, run->slices[SLICES - 1], run->slice_size));
    count_done(run);
}

/* Clears the memory after the tag, a segment at a time. */
static void clear_segments(struct run *run) {
    uint32_t lanes = run->task->numbers.argon2.lanes;
    await(run, run->groups + 1);
    for (;;) {
        uint64_t number = atomic_fetch_add(&run->next_cleared, 1);
        if (number >= (uint64_t)SLICES * lanes)
            return;
        explicit_bzero(run->slices[number / lanes] + number % lanes * run->segment_size,
                       run->segment_size * sizeof(struct argon2_block));
    }
}

/* The work of a helper. A child reads zeros in the part of this stack that the helper's calls use.
 * That part ends at a page's boundary inside a gap: above the gap are bytes of the C library, which
 * the child needs. */
static void *help(void *run) {
    unsigned char gap[PAGE];
    unsigned char *end = gap + PAGE - (uintptr_t)(gap + PAGE) % PAGE;
    madvise(end - HIDDEN_STACK, HIDDEN_STACK, MADV_WIPEONFORK);
    work_groups(run);
    clear_segments(run);
    secrets_clear_traces();
    return NULL;
}

/* The helpers' stacks, one above another in a separate mapping, each over a page without access.
 * The C library would keep its own stacks for later threads, and a child would run on a stack that
 * it must not see. */
struct stacks {
    unsigned char *start;
    size_t size; /* of each, with its page below */
    uint32_t count;
};

/* Maps stacks as large as other threads' stacks, which may hold much thread-local data, but with at
 * least LEAST_STACK bytes. */
static bool map_stacks(struct stacks *stacks, pthread_attr_t *attributes) {
    size_t size;
    if (pthread_attr_getstacksize(attributes, &size) != 0 || size < LEAST_STACK)
        size = LEAST_STACK;
    stacks->size = PAGE + (size + PAGE - 1) / PAGE * PAGE;
    stacks->start = mmap(NULL, stacks->count * stacks->size, PROT_READ | PROT_WRITE,
                         MAP_PRIVATE | MAP_ANONYMOUS | MAP_NORESERVE | MAP_STACK, -1, 0);
    return stacks->start != MAP_FAILED;
}

/* Starts a helper. Of its stack, a core dump has only the highest page, in which debuggers find the
 * thread. */
static bool start_helper(struct run *run, pthread_t *helper, pthread_attr_t *attributes,
                         unsigned char *stack, size_t size) {
    madvise(stack, size - (size_t)sysconf(_SC_PAGESIZE), MADV_DONTDUMP);
    return mprotect(stack, PAGE, PROT_NONE) == 0 &&
           pthread_attr_setstack(attributes, stack + PAGE, size - PAGE) == 0 &&
           pthread_create(helper, attributes, help, run) == 0;
}

/* Starts a helper on each stack, or on as many as the system allows. Helpers handle no signal. */
static uint32_t start_helpers(struct run *run, pthread_t *helpers, struct stacks *stacks) {
    pthread_attr_t attributes;
    uint32_t started = 0;
    if (stacks->count == 0 || pthread_attr_init(&attributes) != 0)
        return 0;
    if (!map_stacks(stacks, &attributes))
        stacks->count = 0;
    sigset_t before = block_signals(run);
    while (started < stacks->count &&
           start_helper(run, &helpers[started], &attributes, stacks->start + started * stacks->size,
                        stacks->size))
        started++;
    pthread_sigmask(SIG_SETMASK, &before, NULL);
    pthread_attr_destroy(&attributes);
    return started;
}

/* Works all parts after the beginning. */
static void work_with_helpers(struct run *run, uint32_t wanted) {
    pthread_t helpers[MOST_HELPERS];
    struct stacks stacks = {.count = wanted};
    uint32_t started = start_helpers(run, helpers, &stacks);
    work_groups(run);
    make_tag(run);
    clear_segments(run);
    sigset_t before = block_signals(run);
    for (uint32_t i = 0; i < started; i++)
        pthread_join(helpers[i], NULL);
    pthread_sigmask(SIG_SETMASK, &before, NULL);
    if (stacks.count > 0)
        munmap(stacks.start, stacks.count * stacks.size);
}

static void give_slices(struct run *run, int count) {
    if (run->task->memory != NULL)
        return;
    while (count > 0)
        heap_give_zeros(run->slices[--count]);
}

/* Sets the slices: one after another in the caller's memory, or blocks of the heap. */
static bool take_slices(struct run *run) {
    struct argon2_block *memory = run->task->memory;
    size_t size = run->slice_size;
    for (int i = 0; i < SLICES; i++) {
        run->slices[i] =
            memory != NULL ? memory + (size_t)i * size : heap_take_zeros(size * sizeof *memory);
        if (run->slices[i] == NULL) {
            give_slices(run, i);
            return false;
        }
    }
    return true;
}

static uint8_t work(struct run *run, uint32_t threads) {
    if (!take_slices(run))
        return RIGZUMAL_MEMORY;
    uint8_t fault = run->task->begin(run->task->inputs, run->slices[0], run->slice_size);
    secrets_clear_traces(); /* of the inputs' hash too: H0 of RFC 9106, section 3.2 */
    if (fault == RIGZUMAL_OK) {
        work_with_helpers(run, threads - 1);
        fault = atomic_load(&run->fault);
    }
    give_slices(run, SLICES);
    return fault;
}

uint8_t lanes_size(const struct tag_numbers *numbers, size_t *size) {
    uint32_t segment_size;
    uint8_t fault = CALL(cred_argon2_segment_len, numbers, &segment_size);
    if (fault == RIGZUMAL_OK)
        *size = (size_t)SLICES * numbers->argon2.lanes * segment_size * sizeof(struct argon2_block);
    return fault;
}

uint8_t lanes_work(const struct task *task, uint32_t threads) {
    size_t size = 0;
    uint8_t fault = lanes_size(&task->numbers, &size);
    if (fault != RIGZUMAL_OK)
        return fault;
    size_t slice_size = size / SLICES / sizeof(struct argon2_block);
    uint32_t lanes = task->numbers.argon2.lanes, lanes_of_group = threads < lanes ? 2 : 1;
    uint32_t groups_of_slice = (lanes + lanes_of_group - 1) / lanes_of_group;
    struct run run = {.task = task,
                      .process = process_number(),
                      .segment_size = slice_size / lanes,
                      .slice_size = slice_size,
                      .lanes_of_group = lanes_of_group,
                      .groups_of_slice = groups_of_slice,
                      .groups = (uint64_t)SLICES * task->numbers.argon2.passes * groups_of_slice,
                      .lock = PTHREAD_MUTEX_INITIALIZER,
                      .more_done = PTHREAD_COND_INITIALIZER};
    int cancel_state;
    pthread_setcancelstate(PTHREAD_CANCEL_DISABLE, &cancel_state);
    fault = work(&run, threads);
    pthread_setcancelstate(cancel_state, &cancel_state);
    pthread_cond_destroy(&run.more_done);
    pthread_mutex_destroy(&run.lock);
    return fault;
}

/* Returns the number of processors that this thread may run on. */
static uint32_t allowed_processors(void) {
    cpu_set_t set;
    if (sched_getaffinity(0, sizeof set, &set) == 0)
        return (uint32_t)CPU_COUNT(&set);
    long online = sysconf(_SC_NPROCESSORS_ONLN); /* for example, over 1024 */
    return online < 1 ? 1 : (uint32_t)online;
}

uint32_t lanes_useful_threads(const struct tag_numbers *numbers, uint32_t allowed) {
    uint32_t most = allowed < numbers->argon2.lanes ? allowed : numbers->argon2.lanes;
    if (most > MOST_HELPERS + 1)
        most = MOST_HELPERS + 1;
    if (most < 2 || numbers->argon2.memory < LEAST_SHARED_MEMORY)
        return 1;
    uint32_t processors = allowed_processors();
    return processors < most ? processors : most;
}
