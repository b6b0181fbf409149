#include "secrets.h"

#include "processor.h"

#include <stdint.h>

__attribute__((noinline)) void secrets_clear_traces(void) {
    unsigned char stack[CLEARED_STACK];
    processor_clear_bytes(stack, sizeof stack);
    processor_clear_registers();
}

bool secrets_are_equal(const void *one, const void *other, size_t size) {
    const uint8_t *first = one, *second = other;
    uint8_t difference = 0;
    for (size_t i = 0; i < size; i++)
        difference |= first[i] ^ second[i];
    return difference == 0;
}
