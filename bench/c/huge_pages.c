/* Runs before the C library's mmap (LD_PRELOAD), and requests huge pages for large mappings, such
 * as those of libsodium, which maps all of its pages at once. */
#define _GNU_SOURCE
#include <sys/mman.h>
#include <sys/syscall.h>
#include <unistd.h>

void *mmap(void *at, size_t size, int protection, int flags, int file, off_t offset) {
    int later = flags & MAP_ANONYMOUS ? flags & ~MAP_POPULATE : flags;
    void *start = (void *)syscall(SYS_mmap, at, size, protection, later, file, offset);
    if (start != MAP_FAILED && flags & MAP_ANONYMOUS)
        madvise(start, size, MADV_HUGEPAGE);
    return start;
}

/* The same call under its other name, for programs that are built for large files. */
void *mmap64(void *at, size_t size, int protection, int flags, int file, off_t offset)
    __attribute__((alias("mmap")));
