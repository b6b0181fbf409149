/* After secrets_clear_traces each vector and mask register of the processor is zero, and so is each
 * general register that a call need not preserve. If a system keeps fewer registers, whose bits are
 * KEPT, the call touches no others. */
#include "check.h"
#include "secrets.h"
#include "stored.h"

#ifndef KEPT
#define KEPT 0xff
#endif

/* With lacking/ the processor lacks AVX512VL. */
unsigned features_of(unsigned leaf, unsigned found);
unsigned features_of(unsigned leaf, unsigned found) {
    return leaf == 7 ? found & ~(1u << 31) : found;
}

enum { AVX_STATE = 0x4, AVX512_STATE = 0xe0, GENERAL = 9 };

#define EACH_GENERAL(of)                                                                           \
    of(0, rax) of(8, rcx) of(16, rdx) of(24, rsi) of(32, rdi) of(40, r8) of(48, r9) of(56, r10)    \
        of(64, r11)
#define FILL_GENERAL(at, name) "mov %%r12, %%" #name "\n\t"
#define STORE_GENERAL(at, name) "mov %%" #name ", " #at "(%%rbx)\n\t"

/* Calls secrets_clear_traces with the mark in each general register that the call need not
 * preserve, below this function's own data on the stack. */
static void call_marked(uint64_t mark, uint64_t found[GENERAL]) {
    register uint64_t held __asm__("r12") = mark;
    register uint64_t *to __asm__("rbx") = found;
    register void (*call)(void) __asm__("r13") = secrets_clear_traces;
    __asm__ volatile(
        "mov %%rsp, %%r14\n\tsub $128, %%rsp\n\tand $-16, %%rsp\n\t" EACH_GENERAL(
            FILL_GENERAL) "call *%%r13\n\t" EACH_GENERAL(STORE_GENERAL) "mov %%r14, %%rsp"
        :
        : "r"(held), "r"(to), "r"(call)
        : "rax", "rcx", "rdx", "rsi", "rdi", "r8", "r9", "r10", "r11", "r14", "cc", "memory");
}

int main(void) {
    struct vectors here = vectors_here(), cleared = here;
    if ((KEPT & AVX512_STATE) != AVX512_STATE && here.count == VECTORS)
        cleared.count = VECTORS / 2;
    if (!(KEPT & AVX_STATE))
        cleared.size = 16;
    static unsigned char mark[VECTOR_SIZE];
    static struct stored found;
    memset(mark, 0x5a, sizeof mark);
    fill_registers(here, mark);
    secrets_clear_traces();
    store_registers(here, &found);
    for (int i = 0; i < here.count; i++) {
        size_t zeros = i < cleared.count ? cleared.size : 0;
        CHECK(is_all(found.vectors[i], 0, zeros));
        CHECK(is_all(found.vectors[i] + zeros, 0x5a, here.size - zeros));
    }
    for (int i = 0; here.count == VECTORS && i < MASKS; i++)
        CHECK(found.masks[i] == (cleared.count == VECTORS ? 0 : 0x5a5a));
    uint64_t general[GENERAL];
    call_marked(UINT64_C(0x5a5a5a5a5a5a5a5a), general);
    CHECK(is_all(general, 0, sizeof general));
    printf("%d vectors of %zu bytes\n", here.count, here.size);
    return 0;
}
