/* Memory for the proved code and for callers that clear their memory themselves, and the memory
 * that the heap keeps between calls. */
#pragma once

#include <stdbool.h>
#include <stddef.h>

/* The calls of the proved code. Even an answer that isn't ok has a pointer that isn't null. */
struct tried {
    bool ok;
    void *start;
};

struct tried rattle_alloc(size_t size, size_t align);
struct tried rattle_realloc(void *old, size_t kept, size_t size, size_t align);
void rattle_dealloc(void *start);

/* Allocates this many bytes of zeros, or returns null if memory is short. Blocks of 64 KiB and more
 * are in huge pages if possible, in no core dump, and zero in a forked child. */
void *heap_take_zeros(size_t size);

/* Frees such bytes, on the thread that allocated them, once all are zero again. */
void heap_give_zeros(void *start);

/* Releases the kept areas to the system, and returns the number of their bytes. */
size_t heap_trim(void);

/* Bounds the bytes that the heap keeps from now on, in whole huge pages, releases all kept areas to
 * the system, and returns the old bound. */
size_t heap_keep(size_t size);
