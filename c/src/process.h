/* The number of this process, which differs in a child that goes on with its parent's call. */
#pragma once

#include <stdint.h>

/* Returns the number of this process, which no process that descends from it has. On a system
 * without MADV_WIPEONFORK, a child in another PID namespace may have the same number. */
uint64_t process_number(void);

/* Ends this process, with a message on standard error, if it had another number when the call
 * began. The process is then a child, forked in a signal handler, that went on with its parent's
 * call. The child has neither the call's memory nor its threads. */
void process_end_child_of(uint64_t number);
