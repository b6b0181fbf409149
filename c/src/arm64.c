/* The one build for ARM64, and the registers of these processors. */
#define _GNU_SOURCE
#include "builds.h"
#include "processor.h"

#include <stdbool.h>
#include <sys/auxv.h>

extern const struct build build_generic;

const struct build *processor_build(void) {
    return &build_generic;
}

void processor_clear_bytes(void *start, size_t size) {
    __asm__ volatile("0: stp xzr, xzr, [%0], #16\n\tsubs %1, %1, #16\n\tb.ne 0b"
                     : "+r"(start), "+r"(size)::"memory", "cc");
}

#define CLEAR(n) "movi v" #n ".2d, #0\n\t"
#define CLEAR_UPPER(n) "mov v" #n ".d[1], xzr\n\t"
#define CLEAR_GENERAL(n) "mov x" #n ", #0\n\t"
#define CLEAR_MASK(n) "pfalse p" #n ".b\n\t"

static bool has_masks;

/* Runs before all calls: no function may run between the clearing of the stack and that of the
 * general registers. */
__attribute__((constructor)) static void ask_for_masks(void) {
    has_masks = getauxval(AT_HWCAP) & HWCAP_SVE;
}

/* The lower halves of v8 to v15 are the caller's. With SVE each of them is the lower part of a
 * longer register, and an instruction that writes one clears the other part. */
static void clear_vectors(void) {
    __asm__ volatile(EIGHT(CLEAR) NEXT_EIGHT(CLEAR_UPPER) UPPER_SIXTEEN(CLEAR)::
                         : "v0", "v1", "v2", "v3", "v4", "v5", "v6", "v7", "v16", "v17", "v18",
                           "v19", "v20", "v21", "v22", "v23", "v24", "v25", "v26", "v27", "v28",
                           "v29", "v30", "v31");
    if (has_masks)
        __asm__ volatile(".arch_extension sve\n\t" EIGHT(CLEAR_MASK)
                             NEXT_EIGHT(CLEAR_MASK) "wrffr p0.b");
}

/* x18 is the platform's. */
void processor_clear_registers(void) {
    clear_vectors();
    __asm__ volatile(EIGHT(CLEAR_GENERAL) NEXT_EIGHT(CLEAR_GENERAL) CLEAR_GENERAL(16)
                         CLEAR_GENERAL(17)::
                             : "x0", "x1", "x2", "x3", "x4", "x5", "x6", "x7", "x8", "x9", "x10",
                               "x11", "x12", "x13", "x14", "x15", "x16", "x17");
}
