/* The original's faults of inputs, in its order, with its messages and names. */
#include "libargon2.h"

PUBLIC const char *argon2_type2string(argon2_type type, int uppercase) {
    switch (type) {
    case Argon2_d:
        return uppercase ? "Argon2d" : "argon2d";
    case Argon2_i:
        return uppercase ? "Argon2i" : "argon2i";
    case Argon2_id:
        return uppercase ? "Argon2id" : "argon2id";
    }
    return NULL;
}

PUBLIC const char *argon2_error_message(int number) {
    static const char *const messages[] = {
        "OK",
        "Output pointer is NULL",
        "Output is too short",
        "Output is too long",
        "Password is too short",
        "Password is too long",
        "Salt is too short",
        "Salt is too long",
        "Associated data is too short",
        "Associated data is too long",
        "Secret is too short",
        "Secret is too long",
        "Time cost is too small",
        "Time cost is too large",
        "Memory cost is too small",
        "Memory cost is too large",
        "Too few lanes",
        "Too many lanes",
        "Password pointer is NULL, but password length is not 0",
        "Salt pointer is NULL, but salt length is not 0",
        "Secret pointer is NULL, but secret length is not 0",
        "Associated data pointer is NULL, but ad length is not 0",
        "Memory allocation error",
        "The free memory callback is NULL",
        "The allocate memory callback is NULL",
        "Argon2_Context context is NULL",
        "There is no such version of Argon2",
        "Output pointer mismatch",
        "Not enough threads",
        "Too many threads",
        "Missing arguments",
        "Encoding failed",
        "Decoding failed",
        "Threading failure",
        "Some of encoded parameters are too long or too short",
        "The password does not match the supplied hash",
    };
    int last = sizeof messages / sizeof messages[0] - 1;
    return number > 0 || number < -last ? "Unknown error code" : messages[-number];
}

int fault_of_context(const argon2_context *context) {
    enum { LEAST_OUT = 4, LEAST_SALT = 8, LEAST_MEMORY = 8, MOST_THREADS = 0xFFFFFF };
    if (context == NULL)
        return ARGON2_INCORRECT_PARAMETER;
    const struct {
        bool is_there;
        int number;
    } faults[] = {
        {context->out == NULL, ARGON2_OUTPUT_PTR_NULL},
        {context->outlen < LEAST_OUT, ARGON2_OUTPUT_TOO_SHORT},
        {context->pwd == NULL && context->pwdlen != 0, ARGON2_PWD_PTR_MISMATCH},
        {context->salt == NULL && context->saltlen != 0, ARGON2_SALT_PTR_MISMATCH},
        {context->saltlen < LEAST_SALT, ARGON2_SALT_TOO_SHORT},
        {context->secret == NULL && context->secretlen != 0, ARGON2_SECRET_PTR_MISMATCH},
        {context->ad == NULL && context->adlen != 0, ARGON2_AD_PTR_MISMATCH},
        {context->m_cost < LEAST_MEMORY, ARGON2_MEMORY_TOO_LITTLE},
        {context->m_cost < 8 * context->lanes, ARGON2_MEMORY_TOO_LITTLE},
        {context->t_cost == 0, ARGON2_TIME_TOO_SMALL},
        {context->lanes == 0, ARGON2_LANES_TOO_FEW},
        {context->lanes > MOST_THREADS, ARGON2_LANES_TOO_MANY},
        {context->threads == 0, ARGON2_THREADS_TOO_FEW},
        {context->threads > MOST_THREADS, ARGON2_THREADS_TOO_MANY},
        {context->allocate_cbk != NULL && context->free_cbk == NULL, ARGON2_FREE_MEMORY_CBK_NULL},
        {context->allocate_cbk == NULL && context->free_cbk != NULL,
         ARGON2_ALLOCATE_MEMORY_CBK_NULL},
    };
    for (size_t i = 0; i < sizeof faults / sizeof faults[0]; i++)
        if (faults[i].is_there)
            return faults[i].number;
    return ARGON2_OK;
}
