/* Fills and stores the vector and mask registers: all that this processor has. */
#pragma once

#include "processor.h"

#include <stdint.h>
#include <string.h>

enum { VECTORS = 32, VECTOR_SIZE = 64, MASKS = 8 };

struct stored {
    unsigned char vectors[VECTORS][VECTOR_SIZE];
    uint64_t masks[MASKS];
};

#define SIXTEEN(of) EIGHT(of) NEXT_EIGHT(of)
#define THIRTY_TWO(of) SIXTEEN(of) UPPER_SIXTEEN(of)

#define FILL(n) __asm__ volatile("movups (%0), %%xmm" #n ::"r"(mark) : "memory");
#define FILL_WIDE(n) __asm__ volatile("vmovups (%0), %%ymm" #n ::"r"(mark) : "memory");
#define FILL_WIDEST(n) __asm__ volatile("vmovups (%0), %%zmm" #n ::"r"(mark) : "memory");
#define FILL_MASK(n) __asm__ volatile("kmovw (%0), %%k" #n ::"r"(mark) : "memory");
#define STORE(n) __asm__ volatile("movups %%xmm" #n ", %0" : "=m"(to->vectors[n]));
#define STORE_WIDE(n) __asm__ volatile("vmovups %%ymm" #n ", %0" : "=m"(to->vectors[n]));
#define STORE_WIDEST(n) __asm__ volatile("vmovups %%zmm" #n ", %0" : "=m"(to->vectors[n]));
#define STORE_MASK(n) __asm__ volatile("kmovw %%k" #n ", %0" : "=m"(to->masks[n]));

/* The number of vectors, and the size of each in bytes. */
struct vectors {
    int count;
    size_t size;
};

static inline struct vectors vectors_here(void) {
    __builtin_cpu_init();
    if (__builtin_cpu_supports("avx512f"))
        return (struct vectors){VECTORS, VECTOR_SIZE};
    return (struct vectors){VECTORS / 2, __builtin_cpu_supports("avx") ? 32 : 16};
}

/* Fills or stores each register of this processor. */
#define EACH(done)                                                                                 \
    if (here.count == VECTORS) {                                                                   \
        THIRTY_TWO(done##_WIDEST)                                                                  \
        EIGHT(done##_MASK)                                                                         \
    } else if (here.size == 32) {                                                                  \
        SIXTEEN(done##_WIDE)                                                                       \
    } else {                                                                                       \
        SIXTEEN(done)                                                                              \
    }

/* Inlined, so that no call comes between these functions and the registers that they store. */
#define HERE static inline __attribute__((always_inline))

HERE void fill_registers(struct vectors here, const unsigned char mark[VECTOR_SIZE]) {
    EACH(FILL);
}

HERE void store_registers(struct vectors here, struct stored *to) {
    EACH(STORE);
}
