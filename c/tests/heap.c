/* The heap by itself. The test allocates, resizes and frees blocks of all sizes in any order: each
 * block keeps its own bytes. The heap maps areas, advises the system, keeps areas between calls,
 * and unmaps them. The heap refuses a request that can't be granted, and changes no block. */
#define _GNU_SOURCE
#include "flags.h"
#include "watched_memory.h"

#include <pthread.h>
#include <signal.h>
#include <unistd.h>

/* In PID namespaces of their own a child and its parent may both be the first process. */
static bool are_all_first;

WRAP(pid_t, getpid, void) {
    return are_all_first ? 1 : __real_getpid();
}

static struct block {
    unsigned char *start;
    size_t size;
    int byte;
} blocks[24];

static size_t drawn_size(void) {
    static const size_t sizes[] = {0, 1, 100, 64 * KIB, MIB, 5 * MIB + 24, AREA, 18 * MIB};
    size_t size = sizes[rand() % 8]; /* or one byte more or less */
    return size < 64 * KIB ? size : size + (size_t)(rand() % 3) - 1;
}

/* Looks only at the ends of a large block. */
static void check_block(const struct block *block) {
    size_t end = block->size < PAGE ? block->size : PAGE;
    CHECK(is_all(block->start, block->byte, end));
    CHECK(is_all(block->start + block->size - end, block->byte, end));
}

static void fill_block(struct block *block, struct tried tried, size_t size) {
    CHECK(tried.ok && (uintptr_t)tried.start % 64 == 0);
    *block = (struct block){tried.start, size, 1 + rand() % 255};
    memset(block->start, block->byte, size);
}

/* Resizes a block, which keeps its first bytes. */
static void change(struct block *block) {
    size_t size = drawn_size();
    if (block->start == NULL) {
        fill_block(block, rattle_alloc(size, 8), size);
        return;
    }
    check_block(block);
    if (rand() % 3 > 0) {
        rattle_dealloc(block->start);
        block->start = NULL;
        return;
    }
    struct tried tried = rattle_realloc(block->start, block->size, size, 8);
    CHECK(tried.ok);
    struct block kept = {tried.start, size < block->size ? size : block->size, block->byte};
    check_block(&kept);
    fill_block(block, tried, size);
}

static void test_random_blocks(void) {
    srand(1);
    for (int step = 0; step < 1200; step++)
        change(&blocks[rand() % (int)COUNT(blocks)]);
    for (size_t i = 0; i < COUNT(blocks); i++)
        if (blocks[i].start != NULL) {
            check_block(&blocks[i]);
            rattle_dealloc(blocks[i].start);
        }
    CHECK(mapped <= KEPT && mapped >= KEPT / 2);
}

/* The heap first uses the space of the last freed block again, whatever its size was, while another
 * block is below it. */
static void test_used_again(void) {
    static const size_t sizes[] = {5 * MIB, 5 * MIB + 1, 5 * MIB + 63};
    for (size_t i = 0; i < COUNT(sizes); i++) {
        unsigned char *below = take_block(MIB);
        unsigned char *above = take_block(sizes[i]);
        rattle_dealloc(above);
        CHECK(take_block(6 * MIB) == above);
        rattle_dealloc(above);
        rattle_dealloc(below);
    }
}

/* Memory for callers that clear their memory themselves is zero, wherever it comes from. */
static void test_zeros(void) {
    static const size_t sizes[] = {1024, 48 * KIB, 64 * KIB, 5 * MIB, AREA, AREA, 1024, 40 * MIB};
    unsigned char *taken[COUNT(sizes)];
    for (size_t i = 0; i < COUNT(sizes); i++) {
        taken[i] = heap_take_zeros(sizes[i]);
        CHECK(taken[i] != NULL && (uintptr_t)taken[i] % 64 == 0);
        CHECK(is_all(taken[i], 0, sizes[i]));
        memset(taken[i], (int)i + 1, sizes[i]);
    }
    most_mapped = mapped;
    CHECK(heap_take_zeros(17 * MIB) == NULL && heap_take_zeros(AREA) == NULL);
    most_mapped = SIZE_MAX;
    for (size_t i = 0; i < COUNT(sizes); i++) {
        CHECK(is_all(taken[i], (int)i + 1, sizes[i]));
        memset(taken[i], 0, sizes[i]);
        heap_give_zeros(taken[i]);
    }
}

/* Allocates more blocks at one time than the first table holds, and than it holds after one growth.
 * If the table can't grow, the heap refuses a block, and the existing ones stay. */
static void test_many_blocks(void) {
    enum { MANY = 200 };
    struct block many[MANY];
    int refusals = 0;
    for (int i = 0; i < MANY; i++) {
        is_refusing_tables = true;
        struct tried tried = rattle_alloc(100, 8);
        is_refusing_tables = false;
        if (!tried.ok) {
            refusals++;
            tried = rattle_alloc(100, 8);
        }
        fill_block(&many[i], tried, 100);
    }
    CHECK(refusals >= 3);
    for (int i = 0; i < MANY; i++) {
        struct block *block = &many[i * 7 % MANY];
        check_block(block);
        rattle_dealloc(block->start);
    }
}

/* Nearly 4 TiB: as many huge pages as the number of an area can express. */
#define LARGEST_AREA ((size_t)HUGE_PAGE * (HUGE_PAGE - 1))

/* A block that can't be resized stays unchanged. The heap refuses an alignment of over 64 bytes.
 * After a refused request the thread has no new block. */
static void *be_refused(void *unused) {
    static const struct {
        size_t size, align;
    } refused[] = {
        {100, 8}, {SIZE_MAX - 100, 8}, {PTRDIFF_MAX, 8}, {LARGEST_AREA + 1, 8}, {100, 128}};
    for (size_t i = 0; i < COUNT(refused); i++) {
        is_refusing = i == 0;
        struct tried tried = rattle_alloc(refused[i].size, refused[i].align);
        CHECK(!tried.ok && tried.start != NULL);
        is_refusing = false;
    }
    unsigned char *block = take_block(100);
    memset(block, 7, 100);
    is_refusing = true;
    CHECK(!rattle_realloc(block, 100, 200, 8).ok);
    is_refusing = false;
    CHECK(is_all(block, 7, 100));
    rattle_dealloc(block);
    return unused;
}

static void test_refusals(void) {
    pthread_t thread;
    CHECK(pthread_create(&thread, NULL, be_refused, NULL) == 0);
    CHECK(pthread_join(thread, NULL) == 0);
}

/* A child reads zeros in a block of its parent, and doesn't change the parent's bytes. If the child
 * frees such a block, it ends with a message, whatever it has allocated itself: its call would
 * return a wrong answer. */
static void check_child(unsigned char *start, size_t size) {
    int streams[2], status;
    char said[80] = "";
    CHECK(pipe(streams) == 0);
    pid_t child = fork();
    if (child == 0) {
        CHECK(!HAS_ADVICE || is_all(start, 0, size));
        CHECK(dup2(streams[1], STDERR_FILENO) >= 0);
        memset(start, 0x99, size);
        take_block(100);
        rattle_dealloc(start);
        _exit(0);
    }
    CHECK(close(streams[1]) == 0 && waitpid(child, &status, 0) == child);
    CHECK(WIFSIGNALED(status) && WTERMSIG(status) == SIGABRT);
    CHECK(read(streams[0], said, sizeof said - 1) > 0 && close(streams[0]) == 0);
    CHECK(strstr(said, "a forked child continued its parent's call\n") != NULL);
}

/* The heap asks once for huge pages for the whole of a new mapping, and unmaps the rest. The
 * mapping is private, is in no core dump, and reads as zero in a forked child, which doesn't change
 * it for the parent. The system may reclaim the pages that the heap keeps. */
static void test_mappings(void) {
    static const size_t sizes[] = {64 * KIB, 5 * MIB, AREA, 40 * MIB, KEPT, 70 * MIB};
    for (size_t i = 0; i < COUNT(sizes); i++) {
        heap_trim();
        CHECK(mapped == 0);
        memset(advised, 0, sizeof advised);
        unsigned char *start = take_block(sizes[i]), *last = start + sizes[i] - 1;
        size_t whole = sizes[i] <= AREA ? AREA : sizes[i], rest = whole < KEPT ? whole : KEPT;
        size_t used = (sizes[i] + HUGE_PAGE - 1) / HUGE_PAGE * HUGE_PAGE;
        CHECK(mapped == whole && (uintptr_t)start % HUGE_PAGE == 0);
        CHECK(is_advised(MADV_HUGEPAGE, start, whole));
        CHECK(is_advised(MADV_DONTDUMP, start, whole));
        CHECK(is_advised(MADV_WIPEONFORK, start, whole));
        CHECK(is_hidden(start) && is_hidden(last));
        CHECK(!has_flag(start, " sh") && !has_flag(last, " sh"));
        memset(start, 0x66, sizes[i]);
        check_child(start, sizes[i]);
        CHECK(is_all(start, 0x66, sizes[i]));
        CHECK(advised[MADV_FREE].times == 0);
        rattle_dealloc(start);
        CHECK(is_advised(MADV_FREE, start, used < KEPT ? used : KEPT) && mapped == rest);
        CHECK(advised[MADV_FREE].size == (used < KEPT ? used : KEPT));
    }
}

/* Tests a child of a namespace's first process: the child is the first of its own namespace. */
static void test_first_processes(void) {
    are_all_first = HAS_ADVICE;
    unsigned char *start = take_block(AREA);
    memset(start, 0x66, AREA);
    check_child(start, AREA);
    rattle_dealloc(start);
    are_all_first = false;
}

/* Allocates this many blocks of a size, writes to them and frees them; then this many are kept. */
static void keep_blocks(int count, size_t size, int kept) {
    unsigned char *taken[160];
    heap_trim();
    for (int i = 0; i < count; i++) {
        taken[i] = take_block(size);
        memset(taken[i], i + 1, PAGE);
    }
    CHECK(heap_trim() == 0 && mapped == (size_t)count * size);
    for (int i = 0; i < count; i++) {
        CHECK(is_all(taken[i], i + 1, PAGE));
        rattle_dealloc(taken[i]);
    }
    CHECK(mapped == (size_t)kept * size);
}

/* Uses this many of the kept areas, and maps none: the trim unmaps the others, each once. */
static void take_kept_blocks(int count, size_t size, int kept) {
    unsigned char *taken[160];
    most_mapped = mapped;
    for (int i = 0; i < count; i++) {
        taken[i] = heap_take_zeros(size);
        CHECK(taken[i] != NULL && is_all(taken[i], 0, PAGE));
    }
    most_mapped = SIZE_MAX;
    CHECK(heap_trim() == (size_t)(kept - count) * size && mapped == (size_t)count * size);
    for (int i = 0; i < count; i++)
        heap_give_zeros(taken[i]);
    CHECK(heap_trim() == (size_t)count * size && mapped == 0);
}

/* The heap keeps areas of cut blocks and of larger ones up to a bound, also of 2 GiB that many
 * callers use at one time, but no more areas than it has places. */
static void test_kept_areas(void) {
    static const struct {
        int blocks, kept;
        size_t size, bound;
    } rows[] = {{0, 0, AREA, KEPT},
                {1, 1, AREA, KEPT},
                {3, 3, AREA, KEPT},
                {4, 4, AREA, KEPT},
                {6, 4, AREA, KEPT},
                {2, 2, 2 * AREA, KEPT},
                {1, 1, 40 * MIB, KEPT},
                {1, 1, KEPT, KEPT},
                {128, 128, AREA, (size_t)128 * AREA},
                {130, 128, AREA, (size_t)140 * AREA}};
    for (size_t i = 0; i < COUNT(rows); i++) {
        int kept = rows[i].kept, least = kept > 4 ? kept : 0; /* of many areas, the test uses all */
        heap_keep(rows[i].bound);
        for (int taken = kept; taken >= least; taken--) {
            keep_blocks(rows[i].blocks, rows[i].size, kept);
            take_kept_blocks(taken, rows[i].size, kept);
        }
    }
    heap_keep(KEPT);
}

/* The heap uses the smallest area that is large enough. It keeps the area of the last freed block,
 * instead of the smallest area if the bound has no room for all. */
static void test_replaced_areas(void) {
    unsigned char *first[3], *last = take_block(30 * MIB);
    for (int i = 0; i < 3; i++)
        first[i] = take_block((size_t)(20 - 2 * i) * MIB);
    for (int i = 0; i < 3; i++)
        rattle_dealloc(first[i]);
    CHECK(mapped == 84 * MIB);
    CHECK(take_block(AREA) == first[2] && take_block(17 * MIB) == first[1]);
    rattle_dealloc(first[2]);
    rattle_dealloc(first[1]);
    rattle_dealloc(last);
    CHECK(mapped == 50 * MIB);
    CHECK(take_block(30 * MIB) == last && take_block(20 * MIB) == first[0]);
    rattle_dealloc(last);
    rattle_dealloc(first[0]);
    CHECK(heap_trim() == 50 * MIB && mapped == 0);
}

/* Takes a block larger than the bound, which this many kept bytes begin: cleared. */
static void grow(size_t wanted) {
    moved = 0;
    unsigned char *start = heap_take_zeros(100 * MIB);
    CHECK(moved == wanted);
    CHECK(is_all(start, 0, 100 * MIB) && (uintptr_t)start % HUGE_PAGE == 0);
    CHECK(is_hidden(start) && is_hidden(start + 99 * MIB));
    memset(start, 1, 100 * MIB);
    rattle_dealloc(start);
}

/* The kept pages of a larger block are the first pages of the next one, with one mapping for all.
 * If the system can't move them, the block is a new one. The pages that weren't replaced stay
 * mapped, unless a filter refused the call. */
static void test_grown_areas(void) {
    static const int faults[] = {ENOSYS, EPERM, EACCES, ENOMEM, EAGAIN, EFAULT, EINVAL};
    for (int turn = 0; turn < 3; turn++)
        grow(turn == 0 ? 0 : KEPT);
    for (size_t i = 0; i < COUNT(faults); i++) {
        fault_of_moves = faults[i];
        grow(0);
        CHECK(mapped == (i < 3 ? KEPT : 2 * KEPT));
        mapped = KEPT;
    }
    fault_of_moves = 0;
}

/* A program may keep more memory, less, or none. A change of the bound frees the kept memory. */
static void test_bounds(void) {
    static const struct {
        size_t bound, kept;
    } bounds[] = {{0, 0},
                  {HUGE_PAGE - 1, 0},
                  {HUGE_PAGE, HUGE_PAGE},
                  {20 * MIB + 5, 20 * MIB},
                  {SIZE_MAX, 100 * MIB}};
    keep_blocks(4, AREA, 4);
    CHECK(heap_keep(0) == KEPT && mapped == 0);
    for (size_t i = 0; i < COUNT(bounds); i++) {
        heap_keep(bounds[i].bound);
        unsigned char *block = take_block(100 * MIB);
        memset(block, 1, 100 * MIB);
        rattle_dealloc(block);
        CHECK(mapped == bounds[i].kept);
        CHECK(heap_keep(0) == bounds[i].bound / HUGE_PAGE * HUGE_PAGE && mapped == 0);
    }
    heap_keep(KEPT);
}

/* If the heap can't map an area for several blocks, a large block has the smallest possible area,
 * with the same flags. The heap gives up kept areas for a block that it would otherwise refuse. */
static void test_little_room(void) {
    most_mapped = 3 * HUGE_PAGE;
    unsigned char *first = heap_take_zeros(64 * KIB), *second = heap_take_zeros(HUGE_PAGE);
    CHECK(first != NULL && second != NULL && mapped == 2 * HUGE_PAGE);
    CHECK(is_hidden(second));
    CHECK(heap_take_zeros(HUGE_PAGE) == NULL); /* the alignment of its start needs more */
    heap_give_zeros(first);
    heap_give_zeros(second);
    most_mapped = SIZE_MAX;
    keep_blocks(2, AREA, 2);
    most_mapped = 24 * MIB;
    unsigned char *larger = heap_take_zeros(20 * MIB);
    CHECK(larger != NULL && mapped == 20 * MIB);
    heap_give_zeros(larger);
    most_mapped = SIZE_MAX;
}

int main(void) {
    test_random_blocks();
    test_used_again();
    test_zeros();
    test_many_blocks();
    if (HAS_ADVICE)
        test_mappings();
    test_first_processes();
    test_kept_areas();
    test_replaced_areas();
    test_grown_areas();
    test_bounds();
    test_little_room();
    test_refusals();
    CHECK(mapped <= KEPT && held == 0);
    return 0;
}
