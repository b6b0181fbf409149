/* A build of stand-ins, and marks that they leave in the places of words of blocks. */
#pragma once

#include "builds.h"
#include "check.h"
#include "windows.h"

/* The inputs of a segment's export. */
struct given_segment {
    const struct tag_numbers *numbers;
    const struct segment_index *index;
    struct given_slice {
        const struct argon2_block *blocks;
        size_t count;
    } earlier[3]; /* the oldest first */
    struct argon2_block *own;
    size_t own_count;
};

/* The test's. */
static uint8_t work_segment(const struct given_segment *given);
static uint8_t segment_len(const struct tag_numbers *numbers, uint32_t *segment_size);

static uint8_t take_segment(const struct tag_numbers *numbers, const struct segment_index *index,
                            const struct argon2_block *oldest, size_t oldest_count,
                            const struct argon2_block *middle, size_t middle_count,
                            const struct argon2_block *newest, size_t newest_count,
                            struct argon2_block *own, size_t own_count) {
    struct given_slice slices[] = {
        {oldest, oldest_count}, {middle, middle_count}, {newest, newest_count}};
    struct given_segment given = {
        numbers, index, {slices[0], slices[1], slices[2]}, own, own_count};
    return work_segment(&given);
}

static _Atomic(int) pairs; /* the number of calls that worked two segments */

static uint8_t take_two_segments(const struct tag_numbers *numbers,
                                 const struct segment_index *index,
                                 const struct argon2_block *oldest, size_t oldest_count,
                                 const struct argon2_block *middle, size_t middle_count,
                                 const struct argon2_block *newest, size_t newest_count,
                                 struct argon2_block *own, size_t own_count) {
    struct segment_index next = {index->pass, index->slice, index->lane + 1};
    size_t half = own_count / 2;
    CHECK(own_count % 2 == 0);
    pairs++;
    uint8_t fault = take_segment(numbers, index, oldest, oldest_count, middle, middle_count, newest,
                                 newest_count, own, half);
    return fault != 0 ? fault
                      : take_segment(numbers, &next, oldest, oldest_count, middle, middle_count,
                                     newest, newest_count, own + half, half);
}

static const struct build stand_ins = {.cred_argon2_segment = take_segment,
                                       .cred_argon2_two_segments = take_two_segments,
                                       .cred_argon2_segment_len = segment_len};

WRAP(const struct build *, processor_build, void) {
    return &stand_ins;
}

/* A word that no other data of the program contains, in a separate mapping. */
static const uint64_t *mark;

static void make_mark(void) {
    uint64_t *made = map_apart(sizeof *made);
    *made = ~UINT64_C(0x5a17edb10c5);
    mark = made;
    add_windows(made, sizeof *made);
}

/* Leaves marks on 8 KiB of the stack below. */
static __attribute__((noinline)) void leave_marks(void) {
    uint64_t marks[1024];
    for (size_t i = 0; i < COUNT(marks); i++)
        marks[i] = *mark;
    __asm__ volatile("" ::"r"(marks) : "memory");
}
