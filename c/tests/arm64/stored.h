/* The stored vector registers: with SVE's lengths if the processor has SVE. */
#pragma once

#include "processor.h"

#include <stdbool.h>
#include <stddef.h>
#include <sys/auxv.h>

enum { VECTORS = 32, VECTOR_SIZE = 256, MASKS = 17, MASK_SIZE = VECTOR_SIZE / 8 };

struct stored {
    unsigned char vectors[VECTORS * VECTOR_SIZE]; /* one after another, each of its size here */
    unsigned char masks[MASKS * MASK_SIZE];       /* p0 to p15 and FFR */
};

/* The size of each in bytes. */
struct vectors {
    size_t size;
    bool has_masks;
};

static inline struct vectors vectors_here(void) {
    struct vectors here = {16, getauxval(AT_HWCAP) & HWCAP_SVE};
    if (here.has_masks)
        __asm__(".arch_extension sve\n\tcntb %0" : "=r"(here.size));
    return here;
}

#define STORE(n) "str q" #n ", [%0, #16 * " #n "]\n\t"
#define STORE_LONG(n) "str z" #n ", [%0, #" #n ", mul vl]\n\t"
#define STORE_MASK(n) "str p" #n ", [%1, #" #n ", mul vl]\n\t"

/* Inlined, so that no call comes between this function and the registers that it stores. */
static inline __attribute__((always_inline)) void store_registers(struct vectors here,
                                                                  struct stored *to) {
    if (here.has_masks)
        __asm__ volatile(".arch_extension sve\n\t" EIGHT(STORE_LONG) NEXT_EIGHT(STORE_LONG)
                             UPPER_SIXTEEN(STORE_LONG) EIGHT(STORE_MASK)
                                 NEXT_EIGHT(STORE_MASK) "rdffr p0.b\n\t"
                                                        "str p0, [%1, #16, mul vl]"
                         :
                         : "r"(to->vectors), "r"(to->masks)
                         : "memory");
    else
        __asm__ volatile(EIGHT(STORE) NEXT_EIGHT(STORE) UPPER_SIXTEEN(STORE)::"r"(to->vectors)
                         : "memory");
}
