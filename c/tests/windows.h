/* Windows: eight bytes that may be in a separate mapping, and nowhere else in the process. */
#pragma once

#include "check.h"

#include <stdint.h>
#include <sys/mman.h>

enum { WINDOW = 8, MOST_WINDOWS = 1024 };

static struct windows {
    int count;
    const unsigned char *at[MOST_WINDOWS];
    unsigned char is_first[1 << 16]; /* whether a window begins with these two bytes */
} windows;

static void add_windows(const void *start, size_t size) {
    const unsigned char *from = start;
    for (size_t i = 0; i + WINDOW <= size; i++) {
        CHECK(windows.count < MOST_WINDOWS && !is_all(from + i, 0, WINDOW));
        windows.at[windows.count++] = from + i;
        windows.is_first[from[i] << 8 | from[i + 1]] = 1;
    }
}

/* Returns memory in its own mapping, which is executable, unlike all others. */
static void *map_apart(size_t size) {
    void *start = mmap(NULL, size, PROT_READ | PROT_WRITE, MAP_PRIVATE | MAP_ANONYMOUS, -1, 0);
    CHECK(start != MAP_FAILED);
    CHECK(mprotect(start, size, PROT_READ | PROT_WRITE | PROT_EXEC) == 0);
    return start;
}

static int is_window(const unsigned char *at) {
    if (!windows.is_first[at[0] << 8 | at[1]])
        return 0;
    for (int i = 0; i < windows.count; i++)
        if (memcmp(at, windows.at[i], WINDOW) == 0)
            return 1;
    return 0;
}

/* Returns the next place where a window may begin: most memory is zeros, and no window is. */
static uintptr_t after_zeros(uintptr_t at, uintptr_t end) {
    while (at % WINDOW == 0 && at + 2 * WINDOW <= end && ((const uint64_t *)at)[0] == 0 &&
           ((const uint64_t *)at)[1] == 0)
        at += WINDOW;
    return at;
}

/* Returns the number of windows in the writable memory of the process, except in `apart` and on the
 * first thread's stack, on which no tested call runs. */
static int found_in_process(const char *name, const void *apart) {
    FILE *maps = fopen("/proc/self/maps", "r");
    CHECK(maps != NULL);
    char line[512];
    uintptr_t start, end;
    int found = 0;
    while (fgets(line, sizeof line, maps) != NULL) {
        char rights[5];
        CHECK(sscanf(line, "%lx-%lx %4s", &start, &end, rights) == 3);
        if (strncmp(rights, "rw", 2) != 0 || start == (uintptr_t)apart ||
            strstr(line, "[stack]") != NULL)
            continue;
        for (uintptr_t at = after_zeros(start, end); at + WINDOW <= end;
             at = after_zeros(at + 1, end))
            if (is_window((const unsigned char *)at) && found++ < 3)
                fprintf(stderr, "%s: at %lx of %s", name, at - start, line);
    }
    fclose(maps);
    return found;
}
