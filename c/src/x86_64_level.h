/* The features of an x86-64 processor, and the level that it has by them. The library's builds and
 * the programs' lanes are for these levels. */
#pragma once

#include <cpuid.h>
#include <stdatomic.h>
#include <stdbool.h>
#include <stdint.h>

/* Of XCR0: the states of SSE and AVX, and those of AVX-512 with them. */
enum { WIDE_STATES = 0x6, WIDEST_STATES = 0xe6 };

struct features {
    uint32_t basic, extended, added; /* of leaf 1, ecx; of leaf 7, ebx; of leaf 0x80000001, ecx */
    uint32_t kept;                   /* of XCR0: the registers that the system keeps */
};

bool processor_has(const struct features *found, const struct features *wanted);

/* Returns the answer to a question, never 0. The code asks once, since a virtual machine answers
 * slowly, and threads that ask at once get the same answer. */
int processor_asked_once(_Atomic(int) *known, int (*ask)(const struct features *found));

/* Returns the highest level that the processor has, 1 to 4 for v1 to v4. */
int processor_level(void);
