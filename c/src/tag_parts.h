/* Argon2 in parts, for lanes on several threads. Each part is proved in the crate. No proof says
 * that C calls the parts in this order:
 *
 * - All calls for a tag have the same numbers. All calls for a record have the result of the text's
 *   reading, unchanged, and the numbers in it.
 * - The memory is four slices, apart from one another and from all else, whose bytes C wrote
 *   before. Each slice has a segment for each lane, one after another. Nobody else writes there.
 * - C calls begin once, with the first slice, before all other parts.
 * - Then for g = 0, 1, .. 4 * passes - 1, C calls segment once for each lane, with pass g / 4 and
 *   slice g % 4. Its own blocks are the lane's in slice g % 4; oldest, middle and newest are the
 *   slices (g + 1) % 4, (g + 2) % 4 and (g + 3) % 4. Or C calls two_segments for a lane and the
 *   next one, instead of their two calls. Its own blocks are those of both lanes.
 * - A segment's call begins when all calls for a smaller g are over, and sees everything that they
 *   wrote.
 * - C calls end once, with the last slice, after the work on all segments.
 * - Only then does C clear the slices, all four of them, whatever the answer was.
 * - After an answer that isn't 0, C makes no further call. */
#pragma once

#include "rigzumal.h"

#include <stdint.h>

/* A block of the memory (RFC 9106, section 3.2). */
struct argon2_block {
    uint64_t words[128];
};

/* The numbers of a tag, as the crate's tag_numbers.rt lays them out. */
struct tag_numbers {
    struct rigzumal_argon2 argon2;
    uint32_t tag_size;
};

/* The place of a segment; all numbers begin at 0. */
struct segment_index {
    uint32_t pass, slice, lane;
};

/* The numbers in a text of Argon2, as the crate's reading.rt lays them out: a setting with the
 * length of its tag, and a record. */
struct setting_reading {
    struct tag_numbers numbers;
    uint32_t salt_size;
    uint8_t salt[RIGZUMAL_SALT_SIZE_MAX];
};

struct record_reading {
    struct setting_reading setting;
    uint8_t tag[RIGZUMAL_TAG_SIZE_MAX];
};
