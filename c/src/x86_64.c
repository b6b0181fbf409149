/* The builds for the levels of x86-64, and the registers of these processors. */
#include "builds.h"
#include "processor.h"
#include "x86_64_level.h"

extern const struct build build_v1, build_v2, build_v3, build_v4;

const struct build *processor_build(void) {
    static const struct build *const builds[] = {&build_v1, &build_v2, &build_v3, &build_v4};
    return builds[processor_level() - 1];
}

void processor_clear_bytes(void *start, size_t size) {
    __asm__ volatile("rep stosb" : "+D"(start), "+c"(size) : "a"(0) : "memory");
}

/* With AVX512VL, instructions on the upper registers may be narrow: wide ones slow some processors
 * down for a while. */
static const struct features of_avx = {bit_OSXSAVE, 0, 0, WIDE_STATES};
static const struct features of_avx512 = {bit_OSXSAVE, bit_AVX512F, 0, WIDEST_STATES};
static const struct features of_narrow_forms = {bit_OSXSAVE, bit_AVX512F | bit_AVX512VL, 0,
                                                WIDEST_STATES};

/* All vector registers of the processor, whatever build the proved code has: the C library copies
 * and clears in zmm16 to zmm31 if it finds AVX-512. */
enum vectors { SSE_ONLY = 1, WITH_AVX, WITH_AVX512, WITH_NARROW_FORMS };

static int vectors_of(const struct features *found) {
    if (!processor_has(found, &of_avx))
        return SSE_ONLY;
    if (!processor_has(found, &of_avx512))
        return WITH_AVX;
    return processor_has(found, &of_narrow_forms) ? WITH_NARROW_FORMS : WITH_AVX512;
}

#define CLEAR(n) "pxor %%xmm" #n ", %%xmm" #n "\n\t"
#ifndef CLEAR_NARROW /* a test sees that processors without them don't run them */
#define CLEAR_NARROW(n) "vpxord %%xmm" #n ", %%xmm" #n ", %%xmm" #n "\n\t"
#endif
#define CLEAR_WIDEST(n) "vpxord %%zmm" #n ", %%zmm" #n ", %%zmm" #n "\n\t"
#define CLEAR_MASK(n) "kxorw %%k" #n ", %%k" #n ", %%k" #n "\n\t"

/* A compiler puts no value into the others: the library is built for any x86-64 processor. */
#define CHANGED                                                                                    \
    "xmm0", "xmm1", "xmm2", "xmm3", "xmm4", "xmm5", "xmm6", "xmm7", "xmm8", "xmm9", "xmm10",       \
        "xmm11", "xmm12", "xmm13", "xmm14", "xmm15"

static void clear_vectors(void) {
    static _Atomic(int) known;
    int found = processor_asked_once(&known, vectors_of);
    if (found == SSE_ONLY)
        __asm__ volatile(EIGHT(CLEAR) NEXT_EIGHT(CLEAR)::: CHANGED);
    else
        __asm__ volatile("vzeroall" ::: CHANGED);
    if (found == WITH_NARROW_FORMS)
        __asm__ volatile(UPPER_SIXTEEN(CLEAR_NARROW) EIGHT(CLEAR_MASK)::);
    if (found == WITH_AVX512)
        __asm__ volatile(UPPER_SIXTEEN(CLEAR_WIDEST) EIGHT(CLEAR_MASK)::);
}

void processor_clear_registers(void) {
    clear_vectors();
    __asm__ volatile(
        "xor %%eax, %%eax\n\txor %%ecx, %%ecx\n\txor %%edx, %%edx\n\t"
        "xor %%esi, %%esi\n\txor %%edi, %%edi\n\txor %%r8d, %%r8d\n\t"
        "xor %%r9d, %%r9d\n\txor %%r10d, %%r10d\n\txor %%r11d, %%r11d" ::
            : "rax", "rcx", "rdx", "rsi", "rdi", "r8", "r9", "r10", "r11", "cc");
}
