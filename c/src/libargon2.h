/* The declarations of argon2.h, with its names and numbers, and the declarations that the files of
 * the drop-in library share. */
#pragma once

#include <stdbool.h>
#include <stddef.h>
#include <stdint.h>

enum argon2_error {
    ARGON2_OK = 0,
    ARGON2_OUTPUT_PTR_NULL = -1,
    ARGON2_OUTPUT_TOO_SHORT = -2,
    ARGON2_OUTPUT_TOO_LONG = -3,
    ARGON2_PWD_TOO_LONG = -5,
    ARGON2_SALT_TOO_SHORT = -6,
    ARGON2_SALT_TOO_LONG = -7,
    ARGON2_TIME_TOO_SMALL = -12,
    ARGON2_MEMORY_TOO_LITTLE = -14,
    ARGON2_MEMORY_TOO_MUCH = -15,
    ARGON2_LANES_TOO_FEW = -16,
    ARGON2_LANES_TOO_MANY = -17,
    ARGON2_PWD_PTR_MISMATCH = -18,
    ARGON2_SALT_PTR_MISMATCH = -19,
    ARGON2_SECRET_PTR_MISMATCH = -20,
    ARGON2_AD_PTR_MISMATCH = -21,
    ARGON2_MEMORY_ALLOCATION_ERROR = -22,
    ARGON2_FREE_MEMORY_CBK_NULL = -23,
    ARGON2_ALLOCATE_MEMORY_CBK_NULL = -24,
    ARGON2_INCORRECT_PARAMETER = -25,
    ARGON2_INCORRECT_TYPE = -26,
    ARGON2_THREADS_TOO_FEW = -28,
    ARGON2_THREADS_TOO_MANY = -29,
    ARGON2_ENCODING_FAIL = -31,
    ARGON2_DECODING_FAIL = -32,
    ARGON2_VERIFY_MISMATCH = -35
};

enum argon2_type { Argon2_d = 0, Argon2_i = 1, Argon2_id = 2 };
typedef enum argon2_type argon2_type;

enum { FLAG_CLEAR_PASSWORD = 1, FLAG_CLEAR_SECRET = 2 };

typedef struct {
    uint8_t *out;
    uint32_t outlen;
    uint8_t *pwd;
    uint32_t pwdlen;
    uint8_t *salt;
    uint32_t saltlen;
    uint8_t *secret;
    uint32_t secretlen;
    uint8_t *ad;
    uint32_t adlen;
    uint32_t t_cost, m_cost, lanes, threads, version;
    int (*allocate_cbk)(uint8_t **memory, size_t size);
    void (*free_cbk)(uint8_t *memory, size_t size);
    uint32_t flags;
} argon2_context;

#define PUBLIC __attribute__((visibility("default")))

const char *argon2_type2string(argon2_type type, int uppercase);
int argon2_ctx(argon2_context *context, argon2_type type);
int argon2_verify_ctx(argon2_context *context, const char *hash, argon2_type type);
int argon2_hash(uint32_t t_cost, uint32_t m_cost, uint32_t parallelism, const void *pwd,
                size_t pwdlen, const void *salt, size_t saltlen, void *hash, size_t hashlen,
                char *encoded, size_t encodedlen, argon2_type type, uint32_t version);
int argon2_verify(const char *encoded, const void *pwd, size_t pwdlen, argon2_type type);

/* Returns the original's fault of the inputs: the first in its order. */
int fault_of_context(const argon2_context *context);

/* Reads a string after its type's name, by the original's rules. Stores the numbers in the context,
 * and the salt and the tag in its room for them, which has as many bytes as the string. A string
 * without a version has 0x10. Returns the place where the reading ended, or null if a field is
 * missing. */
const char *read_string(argon2_context *read, const char *text);

/* Writes the string of a context and its tag, or returns false if it doesn't fit. */
bool write_string(char *text, size_t size, const argon2_context *context, argon2_type type);
