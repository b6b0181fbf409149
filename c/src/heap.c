/* The memory of the proved code, which calls the three functions named rattle_ and no others, and
 * that of lanes.c.
 *
 * The heap clears every block that a call frees. Small blocks come from the C library. The heap
 * cuts large ones, one after another, from areas of huge pages, so that many lanes get huge pages
 * too; a block larger than such an area gets its own area. The heap keeps cleared areas, of 64 MiB
 * in all or the program's bound, for the next call of any thread: that call maps nothing, and the
 * system clears no page for the call.
 *
 * The thread that allocated a block frees it, in the same call: the table of blocks is the thread's
 * own, and ends with the call. That table has the sizes: in front of the blocks, the sizes would
 * touch pages that the call may never use. */
#define _GNU_SOURCE
#include "heap.h"

#include "process.h"

#include <errno.h>
#include <stdatomic.h>
#include <stdint.h>
#include <stdlib.h>
#include <string.h>
#include <sys/mman.h>

enum { KIB = 1024, MIB = 1024 * KIB };
#define LEAST_LARGE ((size_t)64 * KIB)
#define HUGE_PAGE ((size_t)2 * MIB)
#define AREA ((size_t)16 * MIB)
#define LEAST_ALIGN ((size_t)64)

static size_t rounded_up(size_t size, size_t unit) {
    return (size + unit - 1) / unit * unit;
}

/* Areas: mappings of whole huge pages. One number identifies an area: its start, which is a
 * multiple of a huge page, and in the lower bits the number of its huge pages. No area is 0. */

typedef uintptr_t area;

#define LARGEST_AREA ((HUGE_PAGE - 1) * HUGE_PAGE)

static area area_at(unsigned char *start, size_t size) {
    return (area)start + size / HUGE_PAGE;
}

static unsigned char *start_of(area it) {
    return (unsigned char *)(it / HUGE_PAGE * HUGE_PAGE);
}

static size_t size_of(area it) {
    return it % HUGE_PAGE * HUGE_PAGE;
}

static area map_area(size_t size) {
    if (size > LARGEST_AREA)
        return 0;
    unsigned char *mapping =
        mmap(NULL, size + HUGE_PAGE, PROT_READ | PROT_WRITE, MAP_PRIVATE | MAP_ANONYMOUS, -1, 0);
    if (mapping == MAP_FAILED)
        return 0;
    size_t before = (HUGE_PAGE - (uintptr_t)mapping % HUGE_PAGE) % HUGE_PAGE;
    if (before > 0)
        munmap(mapping, before);
    munmap(mapping + before + size, HUGE_PAGE - before);
    madvise(mapping + before, size, MADV_HUGEPAGE);
    madvise(mapping + before, size, MADV_DONTDUMP);
    madvise(mapping + before, size, MADV_WIPEONFORK);
    return area_at(mapping + before, size);
}

static void unmap_area(area it) {
    munmap(start_of(it), size_of(it));
}

/* The kept areas, and the number of their bytes: never more than the bound, except for a moment
 * after a call lowers the bound. The sum counts an area's bytes before the area is in its place,
 * and until the area has left the place. */

enum { PLACES = 128 }; /* for 2 GiB in areas from which the heap cuts blocks */
static _Atomic(area) kept_areas[PLACES];
static atomic_size_t kept, most_kept = 64 * MIB;

/* Removes the smallest of the kept areas that have this many bytes, or returns 0. */
static area take_kept(size_t size) {
    for (;;) {
        area least = 0;
        int place = 0;
        for (int i = 0; i < PLACES; i++) {
            area it = atomic_load(&kept_areas[i]);
            if (it != 0 && size_of(it) >= size && (least == 0 || size_of(it) < size_of(least))) {
                least = it;
                place = i;
            }
        }
        if (least == 0)
            return 0;
        if (atomic_compare_exchange_strong(&kept_areas[place], &least, 0)) {
            atomic_fetch_sub(&kept, size_of(least));
            return least;
        }
    }
}

static bool count_kept(size_t size) {
    size_t before = atomic_load(&kept);
    while (before + size <= atomic_load(&most_kept))
        if (atomic_compare_exchange_weak(&kept, &before, before + size))
            return true;
    return false;
}

static bool put_kept(area it) {
    if (!count_kept(size_of(it)))
        return false;
    for (int i = 0; i < PLACES; i++) {
        area none = 0;
        if (atomic_compare_exchange_strong(&kept_areas[i], &none, it))
            return true;
    }
    atomic_fetch_sub(&kept, size_of(it));
    return false;
}

size_t heap_trim(void) {
    size_t unmapped = 0;
    for (int i = 0; i < PLACES; i++) {
        area it = atomic_exchange(&kept_areas[i], 0);
        if (it == 0)
            continue;
        atomic_fetch_sub(&kept, size_of(it));
        unmap_area(it);
        unmapped += size_of(it);
    }
    return unmapped;
}

/* Keeps a cleared area, or as much of it as the bound allows, instead of smaller ones if necessary.
 * The system may reclaim the used pages, which read as zero either way. An earlier call already let
 * the system reclaim the others, and each page in such a call costs time. */
static void give_area(area it, size_t used) {
    size_t most = atomic_load(&most_kept);
    if (size_of(it) > most) {
        munmap(start_of(it) + most, size_of(it) - most);
        it = area_at(start_of(it), most);
    }
    if (most == 0)
        return;
    size_t told = rounded_up(used, HUGE_PAGE); /* otherwise the system would split a huge page */
    madvise(start_of(it), told < size_of(it) ? told : size_of(it), MADV_FREE);
    while (!put_kept(it)) {
        area other = take_kept(0);
        unmap_area(other != 0 ? other : it);
        if (other == 0)
            return;
    }
    if (atomic_load(&kept) > atomic_load(&most_kept)) /* another call lowered the bound meanwhile */
        heap_trim();
}

/* Moves the pages of a kept area to the beginning of a new, larger one. If the system fails to, it
 * may have unmapped the pages to be replaced, and another thread may have mapped others there
 * since: the heap leaves that range as it is, and maps another area. If a filter of system calls
 * refuses the move, nothing has changed. */
static area grown_area(area it, area kept_one) {
    unsigned char *start = start_of(it);
    size_t size = size_of(it), moved = size_of(kept_one);
    if (mremap(start_of(kept_one), moved, moved, MREMAP_MAYMOVE | MREMAP_FIXED, start) !=
        MAP_FAILED)
        return it;
    int fault = errno;
    unmap_area(kept_one);
    if (fault == ENOSYS || fault == EPERM || fault == EACCES) /* of a filter */
        return it;
    munmap(start + moved, size - moved);
    return map_area(size);
}

static area new_area(size_t size) {
    area it = map_area(size);
    size_t most = atomic_load(&most_kept);
    area kept_one = it != 0 && most > 0 && size > most ? take_kept(most) : 0;
    if (kept_one == 0)
        return it;
    if (size_of(kept_one) < size)
        return grown_area(it, kept_one);
    unmap_area(it); /* one that the heap kept until a call lowered the bound is enough */
    return kept_one;
}

/* Returns a kept area, or a new one; if necessary, a new one that replaces all kept ones. */
static area take_area(size_t size) {
    area it = take_kept(size);
    if (it == 0)
        it = new_area(size);
    if (it == 0 && heap_trim() > 0)
        it = map_area(size);
    return it;
}

size_t heap_keep(size_t size) {
    size_t before = atomic_exchange(&most_kept, size / HUGE_PAGE * HUGE_PAGE);
    heap_trim();
    return before;
}

/* Reads the environment's bound, in bytes, and ignores a text that isn't a number of 64 bits. */
__attribute__((constructor)) static void read_bound(void) {
    const char *text = secure_getenv("RIGZUMAL_KEEP");
    if (text == NULL || *text < '0' || *text > '9')
        return;
    char *end;
    errno = 0;
    unsigned long long size = strtoull(text, &end, 10);
    if (*end == '\0' && errno == 0)
        heap_keep(size);
}

__attribute__((destructor)) static void leave_nothing(void) {
    heap_trim();
}

/* The blocks that this thread has allocated, the newest last. */

struct block {
    unsigned char *start;
    size_t size;
    area area; /* 0 for a block of the C library */
};

static _Thread_local struct {
    struct block *blocks;
    size_t count, room;
    uint64_t process; /* that allocated the first block */
    area area;        /* the area from which the heap cuts blocks, or 0 */
    size_t used;      /* the bytes of that area in use */
    size_t most_used; /* the most since the call has this area */
} taken;

static bool has_room_for_block(void) {
    if (taken.count < taken.room)
        return true;
    size_t room = taken.room == 0 ? 64 : 2 * taken.room;
    struct block *blocks = realloc(taken.blocks, room * sizeof *blocks);
    if (blocks == NULL)
        return false;
    taken.blocks = blocks;
    taken.room = room;
    return true;
}

static struct block library_block(size_t size) {
    void *start = NULL;
    if (posix_memalign(&start, LEAST_ALIGN, size) != 0)
        start = NULL;
    return (struct block){start, size, 0};
}

static bool is_area_in_use(area it) {
    for (size_t i = 0; i < taken.count; i++)
        if (taken.blocks[i].area == it)
            return true;
    return false;
}

/* Keeps the area from which the heap cut blocks, if no block is left in it. */
static void give_empty_area(void) {
    if (taken.area == 0 || is_area_in_use(taken.area))
        return;
    give_area(taken.area, taken.most_used);
    taken.area = 0;
}

/* Ends the table of a thread whose call has freed all blocks. */
static void end_call(void) {
    if (taken.count > 0)
        return;
    give_empty_area();
    free(taken.blocks);
    taken.blocks = NULL;
    taken.room = 0;
}

/* Cuts a block from an area for several blocks. If the memory is too small for such an area, the
 * area is as small as possible. */
static struct block cut_block(size_t size) {
    if (taken.area == 0 || size > size_of(taken.area) - taken.used) {
        give_empty_area();
        area it = take_area(AREA);
        if (it == 0)
            it = take_area(rounded_up(size, HUGE_PAGE));
        if (it == 0)
            return (struct block){NULL, 0, 0};
        taken.area = it;
        taken.used = taken.most_used = 0;
    }
    struct block block = {start_of(taken.area) + taken.used, size, taken.area};
    taken.used += rounded_up(size, LEAST_ALIGN);
    if (taken.used > taken.most_used)
        taken.most_used = taken.used;
    return block;
}

static struct block new_block(size_t size) {
    if (size < LEAST_LARGE)
        return library_block(size);
    if (size <= AREA)
        return cut_block(size);
    give_empty_area();
    area it = take_area(rounded_up(size, HUGE_PAGE));
    return (struct block){start_of(it), size, it};
}

/* Frees a block of an area, which is no longer in the table. The area from which the heap cuts
 * blocks stays the thread's until its call has freed all blocks: scrypt allocates a table for each
 * of its pieces. */
static void give_area_block(struct block block) {
    size_t at = (size_t)(block.start - start_of(block.area));
    if (block.area == taken.area && at + rounded_up(block.size, LEAST_ALIGN) == taken.used)
        taken.used = at;
    if (is_area_in_use(block.area))
        return;
    if (block.area == taken.area) {
        taken.used = 0;
        return;
    }
    give_empty_area(); /* first: if the bound has no room for both, the later area stays */
    give_area(block.area, block.size > AREA ? block.size : size_of(block.area));
}

struct tried rattle_alloc(size_t size, size_t align) {
    static char refused;
    if (size <= PTRDIFF_MAX && align <= LEAST_ALIGN && has_room_for_block()) {
        struct block block = new_block(size == 0 ? align : size);
        if (block.start != NULL) {
            if (taken.count == 0)
                taken.process = process_number();
            taken.blocks[taken.count++] = block;
            return (struct tried){true, block.start};
        }
    }
    end_call();
    return (struct tried){false, &refused};
}

/* Removes a block from the table. */
static struct block struck_out(const void *start) {
    size_t index = taken.count - 1;
    while (taken.blocks[index].start != start)
        index--;
    struct block block = taken.blocks[index];
    taken.count--;
    memmove(&taken.blocks[index], &taken.blocks[index + 1], (taken.count - index) * sizeof block);
    return block;
}

/* Frees a cleared block, which is no longer in the table. In a child, a block of an area has always
 * been zero, and the child's call would return a wrong answer. */
static void give_back(struct block block) {
    if (block.area == 0) {
        free(block.start);
    } else {
        process_end_child_of(taken.process);
        give_area_block(block);
    }
    end_call();
}

void rattle_dealloc(void *start) {
    struct block block = struck_out(start);
    explicit_bzero(block.start, block.size);
    give_back(block);
}

struct tried rattle_realloc(void *old, size_t kept, size_t size, size_t align) {
    struct tried tried = rattle_alloc(size, align);
    if (tried.ok) {
        memcpy(tried.start, old, kept < size ? kept : size);
        rattle_dealloc(old);
    }
    return tried;
}

void *heap_take_zeros(size_t size) {
    struct tried tried = rattle_alloc(size, LEAST_ALIGN);
    if (!tried.ok)
        return NULL;
    if (taken.blocks[taken.count - 1].area == 0) /* other blocks are zero already */
        memset(tried.start, 0, size);
    return tried.start;
}

void heap_give_zeros(void *start) {
    give_back(struck_out(start));
}
