/* The calls of C for proved programs that a C compiler links: the toolchain has its own for x86-64
 * alone, and isn't published. No proof says that these calls meet their contracts, which are in
 * rattle/libc/src/heap.rt and rattle/os/src/c.rt beside the page that `rt doc` names. */
#define _GNU_SOURCE
#include <errno.h>
#include <fcntl.h>
#include <stdbool.h>
#include <stdint.h>
#include <stdlib.h>
#include <string.h>
#include <sys/types.h>

#ifndef __GLIBC__
#error "the programs need glibc: other C libraries hand no arguments to constructors"
#endif

/* libc::types::Tried. */
struct tried {
    bool ok;
    void *p;
};

static char nothing;

static struct tried tried(void *block) {
    return (struct tried){block != NULL, block != NULL ? block : &nothing};
}

/* No alignment is above malloc's 16. A block of no bytes has an address too. */
struct tried rattle_alloc(size_t size, size_t alignment) {
    return tried(malloc(size != 0 ? size : alignment));
}

struct tried rattle_realloc(void *block, size_t kept, size_t size, size_t alignment) {
    (void)kept;
    return tried(realloc(block, size != 0 ? size : alignment));
}

void rattle_dealloc(void *block) {
    free(block);
}

int rattle_errno(void) {
    return errno;
}

void rattle_set_errno(int error) {
    errno = error;
}

static size_t word_count;
static char **words;

/* glibc hands main's arguments to constructors too. */
__attribute__((constructor)) static void keep_words(int count, char **given) {
    word_count = (size_t)count;
    words = given;
}

ssize_t rattle_arg(size_t at, uint8_t *buffer, size_t room) {
    if (at >= word_count)
        return -1;
    size_t size = strlen(words[at]);
    memcpy(buffer, words[at], size < room ? size : room);
    return size <= room ? (ssize_t)size : -2;
}

int rattle_lock_range(int fd, int16_t kind, int64_t start, int64_t size) {
    struct flock range = {.l_type = kind, .l_whence = SEEK_SET, .l_start = start, .l_len = size};
    return fcntl(fd, F_OFD_SETLK, &range);
}
