/* Records whose tags have a secret or associated data (K and X of RFC 9106) beside the password.
 * The proved code reads and writes the texts and computes the tags; this file compares two tags. */
#define _GNU_SOURCE
#include "builds.h"
#include "inputs.h"
#include "secrets.h"
#include "setting.h"

static int make_tag(uint8_t *tag, const struct setting_reading *setting,
                    const struct rigzumal_inputs *inputs) {
    struct rigzumal_inputs with_salt = *inputs;
    with_salt.salt = setting->salt;
    with_salt.salt_size = setting->salt_size;
    return rigzumal_argon2_from(tag, setting->numbers.tag_size, &setting->numbers.argon2,
                                &with_salt);
}

static int make_record(char *text, size_t text_size, size_t tag_size, const char *costs,
                       const struct rigzumal_inputs *inputs) {
    struct setting setting;
    struct setting_reading reading;
    int fault = null_fault_of_record(inputs);
    if (fault == RIGZUMAL_OK)
        fault = setting_make(&setting, costs, inputs->salt, inputs->salt_size);
    if (fault == RIGZUMAL_OK)
        fault =
            CALL(cred_hash_read, setting.text, setting.size, narrow_tag_size(tag_size), &reading);
    uint8_t tag[RIGZUMAL_TAG_SIZE_MAX];
    if (fault == RIGZUMAL_OK)
        fault = make_tag(tag, &reading, inputs);
    if (fault == RIGZUMAL_OK)
        fault = rigzumal_argon2_write(text, text_size, &reading.numbers.argon2, reading.salt,
                                      reading.salt_size, tag, tag_size);
    explicit_bzero(tag, sizeof tag);
    return cleared(fault);
}

static int check(const char *record, const struct rigzumal_inputs *inputs) {
    struct record_reading reading;
    int fault = null_fault_of_record(inputs);
    if (fault == RIGZUMAL_OK)
        fault = CALL(cred_check_read, TEXT(record), &reading);
    uint8_t tag[RIGZUMAL_TAG_SIZE_MAX];
    if (fault == RIGZUMAL_OK)
        fault = make_tag(tag, &reading.setting, inputs);
    if (fault == RIGZUMAL_OK &&
        !secrets_are_equal(tag, reading.tag, reading.setting.numbers.tag_size))
        fault = RIGZUMAL_MISMATCH;
    explicit_bzero(tag, sizeof tag);
    explicit_bzero(reading.tag, sizeof reading.tag);
    return cleared(fault);
}

int rigzumal_record_with_secret_threads(char *text, size_t text_size, size_t tag_size,
                                        const char *costs, const void *salt, size_t salt_size,
                                        const void *password, size_t password_size,
                                        const void *secret, size_t secret_size, uint32_t threads) {
    struct rigzumal_inputs inputs = {password,    password_size, salt, salt_size, secret,
                                     secret_size, NULL,          0,    threads};
    return make_record(text, text_size, tag_size, costs, &inputs);
}

int rigzumal_record_with_secret(char *text, size_t text_size, size_t tag_size, const char *costs,
                                const void *salt, size_t salt_size, const void *password,
                                size_t password_size, const void *secret, size_t secret_size) {
    return rigzumal_record_with_secret_threads(text, text_size, tag_size, costs, salt, salt_size,
                                               password, password_size, secret, secret_size, 1);
}

int rigzumal_check_with_secret_threads(const char *record, const void *password,
                                       size_t password_size, const void *secret, size_t secret_size,
                                       uint32_t threads) {
    struct rigzumal_inputs inputs = {password,    password_size, NULL, 0,      secret,
                                     secret_size, NULL,          0,    threads};
    return check(record, &inputs);
}

int rigzumal_check_with_secret(const char *record, const void *password, size_t password_size,
                               const void *secret, size_t secret_size) {
    return rigzumal_check_with_secret_threads(record, password, password_size, secret, secret_size,
                                              1);
}

/* Whether the inputs have a secret or associated data; a null one with a size counts too. */
static bool has_secret(const struct rigzumal_inputs *inputs) {
    return inputs->secret != NULL || inputs->secret_size != 0 || inputs->associated != NULL ||
           inputs->associated_size != 0;
}

int rigzumal_record_from(char *text, size_t text_size, size_t tag_size, const char *costs,
                         const struct rigzumal_inputs *inputs) {
    if (has_secret(inputs))
        return make_record(text, text_size, tag_size, costs, inputs);
    return rigzumal_record_threads(text, text_size, tag_size, costs, inputs->salt,
                                   inputs->salt_size, inputs->password, inputs->password_size,
                                   inputs->threads);
}

int rigzumal_check_from(const char *record, const struct rigzumal_inputs *inputs) {
    if (has_secret(inputs))
        return check(record, inputs);
    return rigzumal_check_threads(record, inputs->password, inputs->password_size, inputs->threads);
}
