/* The checks of a call's inputs before the call reads any of them. */
#pragma once

#include "rigzumal.h"

/* Returns the fault of a tag's first input that is null though its size isn't 0. */
static inline int null_fault(const struct rigzumal_inputs *inputs) {
    const struct {
        const void *start;
        size_t size;
        int fault;
    } all[] = {{inputs->password, inputs->password_size, RIGZUMAL_NULL_PASSWORD},
               {inputs->salt, inputs->salt_size, RIGZUMAL_NULL_SALT},
               {inputs->secret, inputs->secret_size, RIGZUMAL_NULL_SECRET},
               {inputs->associated, inputs->associated_size, RIGZUMAL_NULL_ASSOCIATED}};
    for (size_t i = 0; i < sizeof all / sizeof all[0]; i++)
        if (all[i].start == NULL && all[i].size != 0)
            return all[i].fault;
    return RIGZUMAL_OK;
}

/* Returns the fault of a record's inputs: the salt of a new record may be null, and a check reads
 * none. */
static inline int null_fault_of_record(const struct rigzumal_inputs *inputs) {
    struct rigzumal_inputs others = *inputs;
    others.salt_size = 0;
    return null_fault(&others);
}

/* Returns the fault of a password that is null though its size isn't 0. */
static inline int null_password_fault(const void *password, size_t size) {
    return null_fault(&(struct rigzumal_inputs){.password = password, .password_size = size});
}
