/* After secrets_clear_traces each vector and mask register is zero, except the lower halves of v8
 * to v15, which a call preserves. So is each general register that a call need not preserve. */
#include "check.h"
#include "secrets.h"
#include "stored.h"

#include <stdint.h>

enum { GENERAL = 18, MARK = 0x5a, KEPT_SIZE = 8 };

static struct stored found;
static uint64_t general[GENERAL];

#define FILL(n) "dup v" #n ".2d, x9\n\t"
#define FILL_LONG(n) "dup z" #n ".d, x9\n\t"
#define FILL_MASK(n) "ptrue p" #n ".b\n\t"
#define FILL_GENERAL(n) "mov x" #n ", x9\n\t"
#define STORE_GENERAL(n) "str x" #n ", [x20, #8 * " #n "]\n\t"

/* Calls secrets_clear_traces with a mark in each register. */
static void call_marked(struct vectors here) {
    register uint64_t mark __asm__("x9") = UINT64_C(0x5a5a5a5a5a5a5a5a);
    register uint64_t *to __asm__("x20") = general;
    register void (*call)(void) __asm__("x21") = secrets_clear_traces;
    if (here.has_masks)
        __asm__ volatile(".arch_extension sve\n\t" EIGHT(FILL_LONG) NEXT_EIGHT(FILL_LONG)
                             UPPER_SIXTEEN(FILL_LONG) EIGHT(FILL_MASK)
                                 NEXT_EIGHT(FILL_MASK) "setffr" ::"r"(mark));
    else
        __asm__ volatile(EIGHT(FILL) NEXT_EIGHT(FILL) UPPER_SIXTEEN(FILL)::"r"(mark));
    __asm__ volatile(EIGHT(FILL_GENERAL) FILL_GENERAL(8) FILL_GENERAL(10) FILL_GENERAL(11)
                         FILL_GENERAL(12) FILL_GENERAL(13) FILL_GENERAL(14) FILL_GENERAL(15)
                             FILL_GENERAL(16) FILL_GENERAL(17) "blr x21\n\t" EIGHT(STORE_GENERAL)
                                 NEXT_EIGHT(STORE_GENERAL) STORE_GENERAL(16) STORE_GENERAL(17)
                     : "+r"(mark)
                     : "r"(to), "r"(call)
                     : "x0", "x1", "x2", "x3", "x4", "x5", "x6", "x7", "x8", "x10", "x11", "x12",
                       "x13", "x14", "x15", "x16", "x17", "x30", "memory", "cc");
    store_registers(here, &found);
}

int main(void) {
    struct vectors here = vectors_here();
    CHECK(here.size <= VECTOR_SIZE);
    call_marked(here);
    for (size_t i = 0; i < VECTORS; i++) {
        const unsigned char *vector = found.vectors + i * here.size;
        size_t kept = i >= 8 && i < 16 ? KEPT_SIZE : 0;
        CHECK(is_all(vector, MARK, kept) && is_all(vector + kept, 0, here.size - kept));
    }
    CHECK(is_all(found.masks, 0, sizeof found.masks));
    for (int i = 0; i < GENERAL; i++) /* the size of secrets_clear_traces' frame may be in one */
        CHECK(general[i] < 2 * CLEARED_STACK);
    printf("%d vectors of %zu bytes\n", VECTORS, here.size);
    return 0;
}
