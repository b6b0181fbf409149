/* The area from which a thread cuts its blocks. The thread has one for a call, in whatever order
 * the call frees its blocks. Once all blocks are free, the system may reclaim the pages that the
 * call used, and the heap gives up no larger area for this one. */
#define _GNU_SOURCE
#include "watched_memory.h"

/* Frees a block. The system may then reclaim this many bytes from `start` on, and no others. */
static void check_offer(unsigned char *freed, const unsigned char *start, size_t size) {
    memset(advised, 0, sizeof advised);
    rattle_dealloc(freed);
    CHECK(is_advised(MADV_FREE, start, size) && advised[MADV_FREE].size == size);
}

/* The thread keeps its area between two blocks of a call. Afterwards the system may reclaim the
 * most bytes that this call used at one time, even if its last blocks used fewer, or an earlier
 * call more. */
static void test_blocks_of_a_call(void) {
    rattle_dealloc(take_block(AREA));
    unsigned char *small = take_block(100), *start = take_block(5 * MIB);
    memset(advised, 0, sizeof advised);
    rattle_dealloc(start);
    for (int turn = 0; turn < 3; turn++) {
        CHECK(take_block(MIB) == start && heap_trim() == 0);
        rattle_dealloc(start);
    }
    CHECK(advised[MADV_FREE].times == 0 && mapped == AREA);
    check_offer(small, start, 6 * MIB);
    CHECK(heap_trim() == AREA && mapped == 0);
}

/* The heap cuts a block behind those in use, and uses the whole of an empty area again: the thread
 * gives up no area. */
static void test_orders(void) {
    unsigned char *small = take_block(100), *start = NULL;
    memset(advised, 0, sizeof advised);
    for (int turn = 0; turn < 3; turn++) {
        unsigned char *first = take_block(MIB), *second = take_block(5 * MIB);
        CHECK((turn == 0 || first == start) && second == first + MIB);
        start = first;
        rattle_dealloc(first);
        unsigned char *third = take_block(2 * MIB);
        CHECK(third == second + 5 * MIB);
        memset(second, 1, 5 * MIB);
        rattle_dealloc(third);
        CHECK(take_block(3 * MIB) == third && is_all(second, 1, 5 * MIB));
        rattle_dealloc(second);
        rattle_dealloc(third);
        CHECK(take_block(AREA) == start);
        rattle_dealloc(start);
    }
    CHECK(advised[MADV_FREE].times == 0 && mapped == AREA);
    rattle_dealloc(small);
}

/* The system may reclaim the part of its own area that a block used, and the whole of an area from
 * which the heap cut blocks before the present one. */
static void test_offers(void) {
    rattle_dealloc(take_block(40 * MIB));
    unsigned char *large = take_block(18 * MIB);
    CHECK(mapped == AREA + 40 * MIB);
    check_offer(large, large, 18 * MIB);
    unsigned char *start = take_block(4 * MIB), *above = take_block(AREA - 4 * MIB);
    unsigned char *present = take_block(MIB);
    rattle_dealloc(start);
    check_offer(above, start, AREA);
    CHECK(present != start);
    check_offer(present, present, HUGE_PAGE);
    heap_trim();
    CHECK(mapped == 0);
}

/* The heap gives up an empty area for a larger block, and for one that doesn't fit into it. */
static void test_little_room(void) {
    unsigned char *small = take_block(100);
    rattle_dealloc(take_block(MIB));
    most_mapped = AREA + 4 * MIB;
    unsigned char *large = take_block(18 * MIB);
    CHECK(mapped == 18 * MIB);
    rattle_dealloc(large);

    most_mapped = 3 * HUGE_PAGE;
    heap_trim();
    rattle_dealloc(take_block(HUGE_PAGE));
    large = take_block(2 * HUGE_PAGE);
    CHECK(mapped == 2 * HUGE_PAGE);
    most_mapped = SIZE_MAX;
    rattle_dealloc(large);
    rattle_dealloc(small);
    CHECK(heap_trim() == 2 * HUGE_PAGE && mapped == 0);
}

/* An empty area doesn't replace a larger one that was freed later. */
static void test_larger_area(void) {
    unsigned char *small = take_block(100), *cut = take_block(MIB), *large = take_block(KEPT);
    rattle_dealloc(cut);
    rattle_dealloc(large);
    rattle_dealloc(small);
    CHECK(mapped == KEPT && take_block(KEPT) == large);
    rattle_dealloc(large);
    heap_trim();
}

int main(void) {
    test_blocks_of_a_call();
    test_orders();
    test_offers();
    test_little_room();
    test_larger_area();
    CHECK(mapped == 0 && held == 0);
    return 0;
}
