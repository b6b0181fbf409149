/* One build, whatever the processor has, whose exports a test may change: -DGIVEN=build_v1. */
#include "builds.h"
#include "check.h"

extern const struct build GIVEN;
extern struct build given_build;
struct build given_build;

__attribute__((constructor)) static void take_build(void) {
    given_build = GIVEN;
}

WRAP(const struct build *, processor_build, void) {
    return &given_build;
}
