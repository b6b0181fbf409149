/* How the system treats a mapping. */
#pragma once

#include "check.h"

#include <stdbool.h>
#include <stdint.h>

/* Whether the mapping of an address has this flag in /proc/self/smaps: "dd" means that it is in no
 * core dump, "wf" that a child reads zeros, "sh" that it is shared. */
static inline bool has_flag(const void *address, const char *flag) {
    FILE *maps = fopen("/proc/self/smaps", "r");
    CHECK(maps != NULL);
    char line[512];
    bool is_here = false, has = false;
    uintptr_t start, end;
    while (fgets(line, sizeof line, maps) != NULL) {
        if (sscanf(line, "%lx-%lx ", &start, &end) == 2)
            is_here = start <= (uintptr_t)address && (uintptr_t)address < end;
        else if (is_here && strncmp(line, "VmFlags:", 8) == 0)
            has = strstr(line + 8, flag) != NULL;
    }
    fclose(maps);
    return has;
}

/* Whether the system receives the requests of madvise: qemu-user passes none on. */
#ifndef HAS_ADVICE
#define HAS_ADVICE true
#endif

/* In no core dump, and zero in a child. */
static inline bool is_hidden(const void *address) {
    return !HAS_ADVICE || (has_flag(address, " dd") && has_flag(address, " wf"));
}
