/* The compiler's cpuid.h, except that the test sets the features in each leaf. */
#pragma once
#pragma GCC system_header

#define __get_cpuid real_cpuid
#define __get_cpuid_count real_cpuid_count
#include_next <cpuid.h>
#undef __get_cpuid
#undef __get_cpuid_count

unsigned features_of(unsigned leaf, unsigned found);

static inline int __get_cpuid_count(unsigned leaf, unsigned subleaf, unsigned *a, unsigned *b,
                                    unsigned *c, unsigned *d) {
    *b = *c = 0;
    int answer = real_cpuid_count(leaf, subleaf, a, b, c, d);
    *b = features_of(leaf, *b);
    *c = features_of(leaf, *c);
    return answer;
}

static inline int __get_cpuid(unsigned leaf, unsigned *a, unsigned *b, unsigned *c, unsigned *d) {
    return __get_cpuid_count(leaf, 0, a, b, c, d);
}
