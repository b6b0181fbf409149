/* The exports of the crate cred_c, which the toolchain compiles for several levels of a processor,
 * a build for each. The crate has the contracts. Its structures are rigzumal_argon2
 * (Argon2Numbers), rigzumal_scrypt (ScryptNumbers), rigzumal_parts (Parts), those of tag_parts.h,
 * and those below. */
#pragma once

#include "tag_parts.h"

#include <stddef.h>
#include <stdint.h>
#include <string.h>

typedef const uint8_t *bytes;

/* Inputs, of cred_argon. */
struct argon2_inputs {
    bytes password;
    size_t password_size;
    bytes salt;
    size_t salt_size;
    bytes secret;
    size_t secret_size;
    bytes associated;
    size_t associated_size;
};

/* StepInputs. */
struct step_inputs {
    uint32_t operation;
    bytes copy;
    size_t copy_size;
    bytes password;
    size_t password_size;
    bytes new_password;
    size_t new_password_size;
    bytes setting;
    size_t setting_size;
};

uint8_t cred_argon2(const struct rigzumal_argon2 *numbers, const struct argon2_inputs *inputs,
                    uint8_t *tag, size_t tag_size);
uint8_t cred_scrypt(const struct rigzumal_scrypt *numbers, bytes password, size_t password_size,
                    bytes salt, size_t salt_size, uint8_t *key, size_t key_size);
uint8_t cred_check(bytes record, size_t record_size, bytes password, size_t password_size);
uint8_t cred_hash(bytes setting, size_t setting_size, uint32_t tag_size, bytes password,
                  size_t password_size, uint8_t *text, size_t text_size, size_t *written);
uint8_t cred_step(const struct step_inputs *inputs, uint32_t *reply, uint8_t *text,
                  size_t text_size, size_t *written);
uint8_t cred_write(const struct rigzumal_argon2 *numbers, bytes salt, size_t salt_size, bytes tag,
                   size_t tag_size, uint8_t *text, size_t text_size, size_t *written);
uint8_t cred_setting_fault(bytes text, size_t text_size);
uint8_t cred_record_fault(bytes text, size_t text_size);
uint8_t cred_record_parts(bytes text, size_t text_size, struct rigzumal_parts *parts);

/* A tag in parts: the order of the calls is that of tag_parts.h. */
uint8_t cred_argon2_segment_len(const struct tag_numbers *numbers, uint32_t *segment);
uint8_t cred_argon2_begin(const struct tag_numbers *numbers, const struct argon2_inputs *inputs,
                          struct argon2_block *first, size_t first_count);
uint8_t cred_argon2_segment(const struct tag_numbers *numbers, const struct segment_index *index,
                            const struct argon2_block *oldest, size_t oldest_count,
                            const struct argon2_block *middle, size_t middle_count,
                            const struct argon2_block *newest, size_t newest_count,
                            struct argon2_block *own, size_t own_count);
uint8_t cred_argon2_two_segments(const struct tag_numbers *numbers,
                                 const struct segment_index *index,
                                 const struct argon2_block *oldest, size_t oldest_count,
                                 const struct argon2_block *middle, size_t middle_count,
                                 const struct argon2_block *newest, size_t newest_count,
                                 struct argon2_block *own, size_t own_count);
uint8_t cred_argon2_end(const struct tag_numbers *numbers, const struct argon2_block *last,
                        size_t last_count, uint8_t *tag, size_t tag_size);
uint8_t cred_check_read(bytes record, size_t record_size, struct record_reading *reading);
uint8_t cred_hash_read(bytes setting, size_t setting_size, uint32_t tag_size,
                       struct setting_reading *reading);
uint8_t cred_read_begin(const struct setting_reading *reading, bytes password, size_t password_size,
                        struct argon2_block *first, size_t first_count);
uint8_t cred_check_end(const struct record_reading *reading, const struct argon2_block *last,
                       size_t last_count);
uint8_t cred_hash_end(const struct setting_reading *reading, const struct argon2_block *last,
                      size_t last_count, uint8_t *text, size_t text_size, size_t *written);

/* clang-format off */
#define EXPORTS(of)                                                                                \
    of(cred_argon2) of(cred_scrypt) of(cred_check) of(cred_hash) of(cred_step) of(cred_write)      \
    of(cred_setting_fault) of(cred_record_fault) of(cred_record_parts)                             \
    of(cred_argon2_segment_len) of(cred_argon2_begin) of(cred_argon2_segment)                      \
    of(cred_argon2_two_segments) of(cred_argon2_end)                                               \
    of(cred_check_read) of(cred_hash_read) of(cred_read_begin) of(cred_check_end) of(cred_hash_end)
/* clang-format on */

/* The exports of a build: src/build.c fills it in. */
#define POINTER(export) __typeof__(export) *export;
struct build {
    EXPORTS(POINTER)
};

/* Returns the best build that this processor runs. */
const struct build *processor_build(void);

/* Calls an export in that build. */
#define CALL(export, ...) processor_build()->export(__VA_ARGS__)

/* A pointer and its size in the form of the exports: never null. */
#define NOTHING ((uint8_t[1]){0})
#define BYTES(start, size) ((size) == 0 ? NOTHING : (bytes)(start)), (size)
#define TEXT(text) (bytes)(text), strlen(text)

/* The room for a text without its zero byte; no text is empty, so a size of 0 or 1 refuses all. */
#define ROOM(text, size) ((size) == 0 ? NOTHING : (uint8_t *)(text)), (size) == 0 ? 0 : (size)-1
