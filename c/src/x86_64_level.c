/* The level of an x86-64 processor, as its processor supplement (psABI) names the levels. */
#include "x86_64_level.h"

/* The levels that a processor may have, each with the features that the one before lacks. The code
 * asks for each feature, as compilers know the levels' names only since gcc 12 and clang 16. The
 * code doesn't choose a level without one of its features: a compiled build may use any of them. */
static const struct features levels[] = {
    {0, 0, 0, 0},
    {bit_SSE3 | bit_SSSE3 | bit_CMPXCHG16B | bit_SSE4_1 | bit_SSE4_2 | bit_POPCNT, 0, bit_LAHF_LM,
     0},
    {bit_FMA | bit_MOVBE | bit_OSXSAVE | bit_AVX | bit_F16C, bit_BMI | bit_AVX2 | bit_BMI2,
     bit_LZCNT, WIDE_STATES},
    {0, bit_AVX512F | bit_AVX512DQ | bit_AVX512CD | bit_AVX512BW | bit_AVX512VL, 0, WIDEST_STATES},
};

/* A test simulates a system that keeps fewer registers. */
#ifndef READ_KEPT_REGISTERS
#define READ_KEPT_REGISTERS "xgetbv"
#endif

static uint32_t kept_registers(void) {
    uint32_t low, high;
    __asm__ volatile(READ_KEPT_REGISTERS : "=a"(low), "=d"(high) : "c"(0));
    return low;
}

static struct features of_processor(void) {
    struct features found = {0, 0, 0, 0};
    uint32_t a, b, c, d;
    if (__get_cpuid(1, &a, &b, &c, &d))
        found.basic = c;
    if (__get_cpuid_count(7, 0, &a, &b, &c, &d))
        found.extended = b;
    if (__get_cpuid(0x80000001, &a, &b, &c, &d))
        found.added = c;
    if (found.basic & bit_OSXSAVE)
        found.kept = kept_registers();
    return found;
}

bool processor_has(const struct features *found, const struct features *wanted) {
    return (found->basic & wanted->basic) == wanted->basic &&
           (found->extended & wanted->extended) == wanted->extended &&
           (found->added & wanted->added) == wanted->added &&
           (found->kept & wanted->kept) == wanted->kept;
}

int processor_asked_once(_Atomic(int) *known, int (*ask)(const struct features *found)) {
    int answer = atomic_load_explicit(known, memory_order_relaxed);
    if (answer == 0) {
        struct features found = of_processor();
        answer = ask(&found);
        atomic_store_explicit(known, answer, memory_order_relaxed);
    }
    return answer;
}

static int level_of(const struct features *found) {
    int level = 1, count = sizeof levels / sizeof levels[0];
    while (level < count && processor_has(found, &levels[level]))
        level++;
    return level;
}

int processor_level(void) {
    static _Atomic(int) known;
    return processor_asked_once(&known, level_of);
}
