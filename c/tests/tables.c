/* Counts the KiB of the tables that all hashes have taken from the heap: one table a hash, in one
 * block or, for threads, in a block for each slice. */
#include "check.h"
#include "heap.h"

enum { KIB = 1024, LEAST = 32 * KIB };

size_t taken; /* KiB */

static void count(size_t size) {
    if (size >= LEAST)
        taken += size / KIB;
}

WRAP(struct tried, rattle_alloc, size_t size, size_t align) {
    count(size);
    return __real_rattle_alloc(size, align);
}

WRAP(void *, heap_take_zeros, size_t size) {
    count(size);
    return __real_heap_take_zeros(size);
}
