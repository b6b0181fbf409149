/* The lanes of a program for every x86-64 processor, which take nearly all of a hash's time, in the
 * build for this processor's level. tools/proved_module.py cuts them from the proved module. */
#include "../src/x86_64_level.h"

#define LANES(name, parameters, arguments)                                                         \
    void name##_v1 parameters;                                                                     \
    void name##_v3 parameters;                                                                     \
    void name##_v4 parameters;                                                                     \
    void name parameters;                                                                          \
    void name parameters {                                                                         \
        /* at v2 they are no faster than at v1 */                                                  \
        static void(*const builds[]) parameters = {name##_v1, name##_v1, name##_v3, name##_v4};    \
        builds[processor_level() - 1] arguments;                                                   \
    }

LANES(lanes_work_segment, (void *part, void *shared), (part, shared))
LANES(lanes_work_interleaved, (void *shared, void *first, void *second), (shared, first, second))
LANES(lanes_mix_piece, (void *piece, void *scratch, void *params), (piece, scratch, params))
