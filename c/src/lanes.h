/* Several threads work the lanes of an Argon2 tag. */
#pragma once

#include "builds.h"

/* A task: a tag's numbers, the function that begins its memory, and the one that computes the
 * result at the end. The caller's thread calls both once, with all blocks of the first slice and of
 * the last. Each function returns 0 or a fault, and writes nothing after a fault. */
struct task {
    struct tag_numbers numbers;
    uint8_t (*begin)(const void *inputs, struct argon2_block *first, size_t count);
    uint8_t (*end)(const void *inputs, const struct argon2_block *last, size_t count);
    const void *inputs;
    struct argon2_block *memory; /* the caller's, for all four slices; or null for the heap's */
};

/* Computes the bytes of the four slices, or returns a fault of the numbers. */
uint8_t lanes_size(const struct tag_numbers *numbers, size_t *size);

/* Returns the number of threads for the lanes: at most `allowed`, one for each lane, and one for
 * each processor that the caller may run on. The number is one if the memory is so small that the
 * start of threads would take longer. */
uint32_t lanes_useful_threads(const struct tag_numbers *numbers, uint32_t allowed);

/* Works a task with this many threads, 1 to 255, the caller's among them. If the system refuses a
 * thread, the others work its lanes. When the call returns, all threads have ended, and the
 * caller's memory, which was zero, is zero again. */
uint8_t lanes_work(const struct task *task, uint32_t threads);
