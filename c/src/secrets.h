/* Compares secrets, and clears the traces of a call. */
#pragma once

#include <stdbool.h>
#include <stddef.h>

/* The bytes of the stack that a call clears: a fifth more than the deepest call uses, with lazy
 * binding too, which tests/stacks.c measures. The number fits into RIGZUMAL_STACK_SIZE. */
enum { CLEARED_STACK = 22 * 1024 };

/* Clears the stack below the caller's frame, and the registers, after all work on secrets. */
void secrets_clear_traces(void);

/* Clears the traces of a call, and returns its answer. */
static inline int cleared(int answer) {
    secrets_clear_traces();
    return answer;
}

/* Clears the traces of a call, and ends an export's text with a zero byte, for which the export
 * left room. */
static inline int ended(int answer, char *text, size_t written) {
    if (answer == 0)
        text[written] = '\0';
    return cleared(answer);
}

/* Whether two secrets of one size are equal, in a time that doesn't depend on where they differ. */
bool secrets_are_equal(const void *one, const void *other, size_t size);
