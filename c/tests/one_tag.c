/* Computes one tag with this many KiB, one lane and one pass; valgrind counts the instructions. */
#include "check.h"
#include "rigzumal.h"

int main(int count, char **words) {
    CHECK(count == 2);
    struct rigzumal_argon2 numbers = {RIGZUMAL_ARGON2ID, RIGZUMAL_VERSION_13,
                                      (uint32_t)atol(words[1]), 1, 1};
    unsigned char tag[32];
    CHECK_NUMBER(rigzumal_argon2(tag, sizeof tag, &numbers, LITERAL("password"),
                                 LITERAL("somesalt"), NO_BYTES, NO_BYTES),
                 RIGZUMAL_OK);
    return 0;
}
