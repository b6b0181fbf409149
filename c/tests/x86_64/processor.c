/* Prints the build that the library chooses: for this processor, or, with lacking/, for one that
 * lacks a single feature, whose leaf of cpuid and bit the arguments name. The library reads each
 * leaf once, since a virtual machine answers slowly. */
#include "builds.h"
#include "check.h"

extern const struct build build_v1, build_v2, build_v3, build_v4;
static unsigned lacking_leaf, lacking_bit, asked;

unsigned features_of(unsigned leaf, unsigned found);
unsigned features_of(unsigned leaf, unsigned found) {
    (void)found;
    asked++;
    return leaf == lacking_leaf ? ~(1u << lacking_bit) : ~0u;
}

int main(int count, char **words) {
    if (count == 3) {
        lacking_leaf = (unsigned)strtoul(words[1], NULL, 16);
        lacking_bit = (unsigned)atoi(words[2]);
    }
    const struct build *builds[] = {&build_v1, &build_v2, &build_v3, &build_v4};
    for (int i = 0; i < 4; i++)
        if (processor_build() == builds[i])
            printf("v%d\n", i + 1);
    CHECK(asked == 0 || asked == 3 * 2); /* two words of a leaf; none if it is the compiler's */
    return 0;
}
