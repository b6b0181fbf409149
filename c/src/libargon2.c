/* The calls of argon2.h, as Debian's libargon2.so.1 has them, over those of rigzumal.h.
 *
 * The calls check inputs in the original's order, and refuse them with its numbers and messages.
 * After that they refuse inputs that only the original accepts, with its nearest number: over 255
 * lanes, over 2 GiB of memory, and a version that isn't 0x10 or 0x13. Strings that are no records
 * here, because the salt has over 48 bytes or the tag over 64, are the work of libargon2_strings.c;
 * the proved code computes their tags all the same. As many threads work the lanes as the context
 * has, as in the original, or as are of use; a thread that the system refuses is no fault. A
 * context's callbacks allocate the memory, and free it cleared. Without callbacks the library keeps
 * up to 64 MiB, cleared, for the next call, as rigzumal.h says. A call clears the inputs that the
 * flags name, and their hash, before it fills the memory, as the original does. The inputs may
 * overlap the output, but not one another if a flag has one of them cleared. */
#define _GNU_SOURCE
#include "libargon2.h"

#include "heap.h"
#include "lanes.h"
#include "secrets.h"

#include <stdlib.h>
#include <string.h>

/* argon2_verify uses up to one thread for each lane. */
enum { MOST_LANES = 255 };

/* Returns the original's number that is nearest to a refusal of the proved code. */
static int number_of(int fault) {
    switch (fault) {
    case RIGZUMAL_OK:
        return ARGON2_OK;
    case RIGZUMAL_MISMATCH:
        return ARGON2_VERIFY_MISMATCH;
    case RIGZUMAL_MEMORY:
        return ARGON2_MEMORY_ALLOCATION_ERROR;
    case RIGZUMAL_LANES:
        return ARGON2_LANES_TOO_MANY;
    case RIGZUMAL_COST:
        return ARGON2_MEMORY_TOO_MUCH;
    case RIGZUMAL_TAG_SIZE_FAULT:
        return ARGON2_OUTPUT_TOO_LONG;
    default:
        return ARGON2_INCORRECT_TYPE; /* its message names the version */
    }
}

/* Clears the inputs that the caller's flags name. */
static void clear_inputs(const argon2_context *context) {
    if (context->flags & FLAG_CLEAR_PASSWORD)
        explicit_bzero(context->pwd, context->pwdlen);
    if (context->flags & FLAG_CLEAR_SECRET)
        explicit_bzero(context->secret, context->secretlen);
}

/* Gives a cleared input the size 0, or, after a refusal, a null pointer, so that a second call is
 * refused too, and doesn't use an empty password. */
static void forget_inputs(argon2_context *context, bool is_done) {
    if (context->flags & FLAG_CLEAR_PASSWORD) {
        context->pwdlen = is_done ? 0 : context->pwdlen;
        context->pwd = is_done ? context->pwd : NULL;
    }
    if (context->flags & FLAG_CLEAR_SECRET) {
        context->secretlen = is_done ? 0 : context->secretlen;
        context->secret = is_done ? context->secret : NULL;
    }
}

/* The parts of a context's tag: its own numbers, and the place for the tag. */
struct tag_in_parts {
    argon2_context *context;
    struct tag_numbers numbers;
    uint8_t *tag;
    bool *is_begun;
};

/* Begins the tag; after this call nobody reads the inputs. */
static uint8_t begin_tag(const void *inputs, struct argon2_block *first, size_t count) {
    const struct tag_in_parts *it = inputs;
    const argon2_context *from = it->context;
    struct argon2_inputs all = {BYTES(from->pwd, from->pwdlen), BYTES(from->salt, from->saltlen),
                                BYTES(from->secret, from->secretlen), BYTES(from->ad, from->adlen)};
    uint8_t fault = CALL(cred_argon2_begin, &it->numbers, &all, first, count);
    *it->is_begun = fault == RIGZUMAL_OK;
    if (*it->is_begun)
        clear_inputs(from);
    return fault;
}

static uint8_t end_tag(const void *inputs, const struct argon2_block *last, size_t count) {
    const struct tag_in_parts *it = inputs;
    return CALL(cred_argon2_end, &it->numbers, last, count, it->tag, it->numbers.tag_size);
}

static struct rigzumal_argon2 numbers_of(const argon2_context *context, argon2_type type) {
    return (struct rigzumal_argon2){(uint32_t)type, context->version, context->m_cost,
                                    context->t_cost, context->lanes};
}

/* Ignores the answer of allocate, and treats a null pointer as a refusal, as the original does. */
static uint8_t *memory_of(const argon2_context *context, size_t size) {
    uint8_t *memory = NULL;
    context->allocate_cbk(&memory, size);
    if (memory != NULL && (uintptr_t)memory % _Alignof(struct argon2_block) != 0) {
        context->free_cbk(memory, size);
        return NULL;
    }
    return memory;
}

/* Works a task in memory that the caller's functions allocate and free. */
static int work_by_callbacks(struct task *task, const argon2_context *context) {
    size_t size;
    int fault = lanes_size(&task->numbers, &size);
    if (fault != RIGZUMAL_OK)
        return fault;
    uint8_t *memory = memory_of(context, size);
    if (memory == NULL)
        return RIGZUMAL_MEMORY;
    memset(memory, 0, size);
    task->memory = (struct argon2_block *)memory;
    fault = lanes_work(task, lanes_useful_threads(&task->numbers, context->threads));
    context->free_cbk(memory, size);
    return fault;
}

static int make_tag_in_parts(uint8_t *tag, argon2_context *context, argon2_type type) {
    struct tag_numbers numbers = {numbers_of(context, type), context->outlen};
    bool is_begun = false;
    struct tag_in_parts made = {context, numbers, tag, &is_begun};
    struct task task = {numbers, begin_tag, end_tag, &made, NULL};
    int fault = context->allocate_cbk != NULL
                    ? work_by_callbacks(&task, context)
                    : lanes_work(&task, lanes_useful_threads(&numbers, context->threads));
    if (is_begun)
        forget_inputs(context, fault == RIGZUMAL_OK);
    return fault;
}

/* Computes the tag: with a flag in parts, of which the later ones need no input, otherwise in one
 * export. */
static int make_tag(uint8_t *tag, argon2_context *context, argon2_type type) {
    if (context->allocate_cbk != NULL || context->flags & (FLAG_CLEAR_PASSWORD | FLAG_CLEAR_SECRET))
        return cleared(make_tag_in_parts(tag, context, type));
    struct rigzumal_inputs inputs = {context->pwd,     context->pwdlen, context->salt,
                                     context->saltlen, context->secret, context->secretlen,
                                     context->ad,      context->adlen,  context->threads};
    struct rigzumal_argon2 numbers = numbers_of(context, type);
    return rigzumal_argon2_from(tag, context->outlen, &numbers, &inputs);
}

PUBLIC int argon2_ctx(argon2_context *context, argon2_type type) {
    int number = fault_of_context(context);
    if (number != ARGON2_OK)
        return number;
    if (argon2_type2string(type, 0) == NULL)
        return ARGON2_INCORRECT_TYPE;
    uint8_t *tag = malloc(context->outlen); /* the caller's room may overlap the inputs */
    if (tag == NULL)
        return ARGON2_MEMORY_ALLOCATION_ERROR;
    number = number_of(make_tag(tag, context, type));
    if (number == ARGON2_OK)
        memcpy(context->out, tag, context->outlen);
    explicit_bzero(tag, context->outlen);
    free(tag);
    secrets_clear_traces();
    return number;
}

PUBLIC int argon2_verify_ctx(argon2_context *context, const char *hash, argon2_type type) {
    int number = argon2_ctx(context, type);
    if (number != ARGON2_OK)
        return number;
    bool is_right = secrets_are_equal(hash, context->out, context->outlen);
    secrets_clear_traces();
    return is_right ? ARGON2_OK : ARGON2_VERIFY_MISMATCH;
}

/* Writes the encoded string, or zeros its whole buffer if it doesn't fit. The proved code writes
 * strings that are records. */
static int encode(char *encoded, size_t size, const argon2_context *context, argon2_type type) {
    struct rigzumal_argon2 numbers = numbers_of(context, type);
    int fault = rigzumal_argon2_write(encoded, size, &numbers, context->salt, context->saltlen,
                                      context->out, context->outlen);
    if (fault == RIGZUMAL_SALT || fault == RIGZUMAL_TAG)
        fault = write_string(encoded, size, context, type) ? RIGZUMAL_OK : RIGZUMAL_NO_ROOM;
    if (fault == RIGZUMAL_OK)
        return ARGON2_OK;
    explicit_bzero(encoded, size);
    return fault == RIGZUMAL_MEMORY ? ARGON2_MEMORY_ALLOCATION_ERROR : ARGON2_ENCODING_FAIL;
}

PUBLIC int argon2_hash(uint32_t t_cost, uint32_t m_cost, uint32_t parallelism, const void *pwd,
                       size_t pwdlen, const void *salt, size_t saltlen, void *hash, size_t hashlen,
                       char *encoded, size_t encodedlen, argon2_type type, uint32_t version) {
    if (pwdlen > UINT32_MAX)
        return ARGON2_PWD_TOO_LONG;
    if (saltlen > UINT32_MAX)
        return ARGON2_SALT_TOO_LONG;
    if (hashlen > UINT32_MAX)
        return ARGON2_OUTPUT_TOO_LONG;
    uint8_t *tag = malloc(hashlen == 0 ? 1 : hashlen);
    if (tag == NULL)
        return ARGON2_MEMORY_ALLOCATION_ERROR;
    argon2_context context = {.out = tag,
                              .outlen = (uint32_t)hashlen,
                              .pwd = (uint8_t *)(uintptr_t)pwd,
                              .pwdlen = (uint32_t)pwdlen,
                              .salt = (uint8_t *)(uintptr_t)salt,
                              .saltlen = (uint32_t)saltlen,
                              .t_cost = t_cost,
                              .m_cost = m_cost,
                              .lanes = parallelism,
                              .threads = parallelism,
                              .version = version};
    int number = argon2_ctx(&context, type);
    if (number == ARGON2_OK && hash != NULL)
        memcpy(hash, tag, hashlen);
    if (number == ARGON2_OK && encoded != NULL && encodedlen > 0)
        number = encode(encoded, encodedlen, &context, type);
    explicit_bzero(tag, hashlen);
    free(tag);
    secrets_clear_traces();
    return number;
}

/* Whether the tag that a context reads from a string is the one of its password. */
static int verify_read(argon2_context *read, argon2_type type) {
    uint8_t *tag = read->out;
    read->out = malloc(read->outlen);
    if (read->out == NULL)
        return ARGON2_MEMORY_ALLOCATION_ERROR;
    int number = argon2_verify_ctx(read, (const char *)tag, type);
    explicit_bzero(read->out, read->outlen);
    free(read->out);
    return number;
}

/* Verifies a string that is no record here, or finds the number with which the original refuses it.
 * The text begins after its type's name. */
static int verify_string(const char *text, const void *pwd, size_t pwdlen, argon2_type type) {
    size_t room = strlen(text) + 1;
    if (room > UINT32_MAX)
        return ARGON2_DECODING_FAIL;
    uint8_t *fields = malloc(2 * room);
    if (fields == NULL)
        return ARGON2_MEMORY_ALLOCATION_ERROR;
    argon2_context read = {.out = fields,
                           .outlen = (uint32_t)room,
                           .pwd = (uint8_t *)(uintptr_t)pwd,
                           .pwdlen = (uint32_t)pwdlen,
                           .salt = fields + room,
                           .saltlen = (uint32_t)room};
    const char *end = read_string(&read, text);
    read.threads = read.lanes;
    int number = end == NULL ? ARGON2_DECODING_FAIL : fault_of_context(&read);
    if (number == ARGON2_OK)
        number = *end == '\0' ? verify_read(&read, type) : ARGON2_DECODING_FAIL;
    explicit_bzero(fields, 2 * room);
    free(fields);
    return number;
}

/* Each call that reads the password or computes a tag has cleared its traces. */
PUBLIC int argon2_verify(const char *encoded, const void *pwd, size_t pwdlen, argon2_type type) {
    if (pwdlen > UINT32_MAX)
        return ARGON2_PWD_TOO_LONG;
    if (encoded == NULL)
        return ARGON2_DECODING_FAIL;
    const char *name = argon2_type2string(type, 0);
    if (name == NULL)
        return ARGON2_INCORRECT_TYPE;
    size_t size = strlen(name);
    if (encoded[0] != '$' || strncmp(encoded + 1, name, size) != 0)
        return ARGON2_DECODING_FAIL;
    const char *text = encoded + 1 + size;
    if (*text != '$' || rigzumal_record_fault(encoded) != RIGZUMAL_OK)
        return verify_string(text, pwd, pwdlen, type);
    if (pwd == NULL && pwdlen != 0)
        return ARGON2_PWD_PTR_MISMATCH;
    return number_of(rigzumal_check_threads(encoded, pwd, pwdlen, MOST_LANES));
}

/* The calls above for each type. */
#define CALLS_OF(name, type)                                                                       \
    PUBLIC int name##_ctx(argon2_context *context) {                                               \
        return argon2_ctx(context, type);                                                          \
    }                                                                                              \
    PUBLIC int name##_verify_ctx(argon2_context *context, const char *hash) {                      \
        return argon2_verify_ctx(context, hash, type);                                             \
    }                                                                                              \
    PUBLIC int name##_verify(const char *encoded, const void *pwd, size_t pwdlen) {                \
        return argon2_verify(encoded, pwd, pwdlen, type);                                          \
    }                                                                                              \
    PUBLIC int name##_hash_raw(uint32_t t_cost, uint32_t m_cost, uint32_t parallelism,             \
                               const void *pwd, size_t pwdlen, const void *salt, size_t saltlen,   \
                               void *hash, size_t hashlen) {                                       \
        return argon2_hash(t_cost, m_cost, parallelism, pwd, pwdlen, salt, saltlen, hash, hashlen, \
                           NULL, 0, type, RIGZUMAL_VERSION_13);                                    \
    }                                                                                              \
    PUBLIC int name##_hash_encoded(                                                                \
        uint32_t t_cost, uint32_t m_cost, uint32_t parallelism, const void *pwd, size_t pwdlen,    \
        const void *salt, size_t saltlen, size_t hashlen, char *encoded, size_t encodedlen) {      \
        return argon2_hash(t_cost, m_cost, parallelism, pwd, pwdlen, salt, saltlen, NULL, hashlen, \
                           encoded, encodedlen, type, RIGZUMAL_VERSION_13);                        \
    }

CALLS_OF(argon2d, Argon2_d)
CALLS_OF(argon2i, Argon2_i)
CALLS_OF(argon2id, Argon2_id)

PUBLIC size_t rigzumal_libargon2_trim(void) {
    return heap_trim();
}

PUBLIC size_t rigzumal_libargon2_keep(size_t most) {
    return heap_keep(most);
}
