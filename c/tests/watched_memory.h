/* The requests of src/heap.c to the system and the C library: the linker calls these functions
 * first. They check that freed memory is zero. */
#pragma once

#include "check.h"
#include "heap.h"

#include <errno.h>
#include <stdint.h>
#include <sys/mman.h>

enum { PAGE = 4096, KIB = 1024, MIB = 1024 * KIB };
enum { HUGE_PAGE = 2 * MIB, AREA = 16 * MIB, KEPT = 4 * AREA, MOST_PIECES = 256 };

static size_t mapped;                 /* bytes */
static size_t most_mapped = SIZE_MAX; /* beyond these, mmap fails */
static size_t moved;                  /* bytes that all calls moved by mremap */

/* The refused requests: blocks of the C library, the table of blocks. */
static bool is_refusing, is_refusing_tables;

static int fault_of_moves; /* of mremap, or 0 */

/* The last advice of each kind, and the number of them. */
static struct advised {
    unsigned char *start;
    size_t size;
    int times;
} advised[128];

/* The allocated blocks of the C library. */
static int held;
static struct piece {
    void *start;
    size_t size;
} pieces[MOST_PIECES];

WRAP(int, posix_memalign, void **start, size_t align, size_t size) {
    int answer = is_refusing ? ENOMEM : __real_posix_memalign(start, align, size);
    if (answer == 0) {
        CHECK(held < MOST_PIECES);
        pieces[held++] = (struct piece){*start, size};
        memset(*start, 0xa5, size);
    }
    return answer;
}

WRAP(void, free, void *start) {
    for (int i = 0; i < held; i++)
        if (pieces[i].start == start) {
            CHECK(is_all(start, 0, pieces[i].size));
            pieces[i] = pieces[--held];
            break;
        }
    __real_free(start);
}

WRAP(void *, realloc, void *start, size_t size) {
    return is_refusing_tables ? NULL : __real_realloc(start, size);
}

WRAP(int, munmap, void *start, size_t size) {
    mapped -= size;
    CHECK(is_all(start, 0, size < PAGE ? size : PAGE));
    return __real_munmap(start, size);
}

WRAP(void *, mmap, void *at, size_t size, int protection, int flags, int file, off_t offset) {
    if (mapped + size > most_mapped)
        return MAP_FAILED;
    mapped += size;
    /* at a place where no huge page begins, since systems differ in this */
    unsigned char *start = __real_mmap(at, size + PAGE, protection, flags, file, offset);
    CHECK(start != MAP_FAILED);
    bool is_aligned = (uintptr_t)start % HUGE_PAGE == 0;
    CHECK(__real_munmap(is_aligned ? start : start + size, PAGE) == 0);
    return is_aligned ? start + PAGE : start;
}

WRAP(void *, mremap, void *old, size_t size, size_t new_size, int flags, void *to) {
    CHECK(new_size == size && is_all(old, 0, PAGE));
    if (fault_of_moves != 0) {
        errno = fault_of_moves;
        return MAP_FAILED;
    }
    mapped -= size; /* the moved pages replace as many others */
    moved += size;
    return __real_mremap(old, size, new_size, flags, to);
}

WRAP(int, madvise, void *start, size_t size, int advice) {
    CHECK(advice >= 0 && advice < 128);
    advised[advice] = (struct advised){start, size, advised[advice].times + 1};
    return __real_madvise(start, size, advice);
}

/* Whether the system received this advice once, for a whole range. */
static inline bool is_advised(int advice, const unsigned char *start, size_t size) {
    const struct advised *it = &advised[advice];
    return it->times == 1 && it->start <= start && start + size <= it->start + it->size;
}

/* Allocates a block, and fails if the heap refuses it. */
static unsigned char *take_block(size_t size) {
    struct tried tried = rattle_alloc(size, 8);
    CHECK(tried.ok);
    return tried.start;
}
