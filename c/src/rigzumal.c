/* The calls of rigzumal.h, over the exports of the crate cred_c. */
#include "rigzumal.h"

#include "builds.h"
#include "heap.h"
#include "inputs.h"
#include "secrets.h"

const char *rigzumal_version(void) {
    return RIGZUMAL_LIBRARY_VERSION;
}

size_t rigzumal_trim(void) {
    return heap_trim();
}

size_t rigzumal_keep(size_t most) {
    return heap_keep(most);
}

int rigzumal_argon2(void *tag, size_t tag_size, const struct rigzumal_argon2 *numbers,
                    const void *password, size_t password_size, const void *salt, size_t salt_size,
                    const void *secret, size_t secret_size, const void *associated,
                    size_t associated_size) {
    return rigzumal_argon2_threads(tag, tag_size, numbers, password, password_size, salt, salt_size,
                                   secret, secret_size, associated, associated_size, 1);
}

int rigzumal_scrypt(void *key, size_t key_size, const struct rigzumal_scrypt *numbers,
                    const void *password, size_t password_size, const void *salt,
                    size_t salt_size) {
    int fault = null_fault(&(struct rigzumal_inputs){.password = password,
                                                     .password_size = password_size,
                                                     .salt = salt,
                                                     .salt_size = salt_size});
    if (fault != RIGZUMAL_OK)
        return fault;
    return cleared(CALL(cred_scrypt, numbers, BYTES(password, password_size),
                        BYTES(salt, salt_size), key_size == 0 ? NOTHING : key, key_size));
}

int rigzumal_check(const char *record, const void *password, size_t password_size) {
    return rigzumal_check_threads(record, password, password_size, 1);
}

int rigzumal_record(char *text, size_t text_size, size_t tag_size, const char *costs,
                    const void *salt, size_t salt_size, const void *password,
                    size_t password_size) {
    return rigzumal_record_threads(text, text_size, tag_size, costs, salt, salt_size, password,
                                   password_size, 1);
}

/* A text in the form of the exports; the text may be null. */
#define TEXT_OR_NONE(text)                                                                         \
    (text) == NULL ? NOTHING : (bytes)(text), (text) == NULL ? 0 : strlen(text)

int rigzumal_step(char *text, size_t text_size, uint32_t *reply, uint32_t operation,
                  const char *copy, const void *password, size_t password_size,
                  const void *new_password, size_t new_password_size, const char *setting) {
    int fault = null_password_fault(password, password_size);
    if (fault == RIGZUMAL_OK && operation == RIGZUMAL_CHANGE)
        fault = null_password_fault(new_password, new_password_size);
    if (fault != RIGZUMAL_OK)
        return fault;
    size_t written = 0;
    /* To the export an empty copy is no copy; here an empty text is no record. */
    if (copy != NULL && copy[0] == '\0')
        copy = "$";
    struct step_inputs inputs = {operation, TEXT_OR_NONE(copy), BYTES(password, password_size),
                                 BYTES(new_password, new_password_size), TEXT_OR_NONE(setting)};
    uint8_t answer = CALL(cred_step, &inputs, reply, ROOM(text, text_size), &written);
    return text_size == 0 ? cleared(answer) : ended(answer, text, written);
}

int rigzumal_argon2_write(char *text, size_t text_size, const struct rigzumal_argon2 *numbers,
                          const void *salt, size_t salt_size, const void *tag, size_t tag_size) {
    struct rigzumal_inputs inputs = {.salt = salt, .salt_size = salt_size};
    int fault = null_fault(&inputs);
    if (fault != RIGZUMAL_OK)
        return fault;
    if (tag == NULL)
        tag_size = 0; /* which is a fault */
    size_t written = 0;
    uint8_t answer = CALL(cred_write, numbers, BYTES(salt, salt_size), BYTES(tag, tag_size),
                          ROOM(text, text_size), &written);
    return ended(answer, text, written);
}
