/* The calls that each processor has in its own file, such as x86_64.c. That file also has
 * processor_build of builds.h. */
#pragma once

#include <stddef.h>

/* Clears a multiple of 16 bytes without a further call, which could reach below a stack. */
void processor_clear_bytes(void *start, size_t size);

/* Clears the general registers that a call need not preserve, and every vector and mask register
 * that the processor has and the system keeps. A value left in a register would reach the stack as
 * soon as the program binds a function lazily. */
void processor_clear_registers(void);

/* Each of some registers: of(0) to of(7), and so on. */
#define EIGHT(of) of(0) of(1) of(2) of(3) of(4) of(5) of(6) of(7)
#define NEXT_EIGHT(of) of(8) of(9) of(10) of(11) of(12) of(13) of(14) of(15)
#define UPPER_SIXTEEN(of)                                                                          \
    of(16) of(17) of(18) of(19) of(20) of(21) of(22) of(23) of(24) of(25) of(26) of(27) of(28)     \
        of(29) of(30) of(31)
