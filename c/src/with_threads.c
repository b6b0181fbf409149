/* The calls of rigzumal.h with threads. A task's begin and end are the crate's, and lanes.c works
 * its lanes. If one thread is enough, or if a text has a fault or is scrypt's, one export does all
 * of the work. */
#define _GNU_SOURCE
#include "inputs.h"
#include "lanes.h"
#include "secrets.h"
#include "setting.h"

/* The inputs of a tag, and the place for the tag. */
struct tag_inputs {
    const struct tag_numbers *numbers;
    const struct rigzumal_inputs *inputs;
    uint8_t *tag;
};

/* The inputs in the form of the exports. */
#define PROVED(it)                                                                                 \
    BYTES(it->password, it->password_size), BYTES(it->salt, it->salt_size),                        \
        BYTES(it->secret, it->secret_size), BYTES(it->associated, it->associated_size)

static uint8_t begin_tag(const void *inputs, struct argon2_block *first, size_t count) {
    const struct tag_inputs *it = inputs;
    struct argon2_inputs all = {PROVED(it->inputs)};
    return CALL(cred_argon2_begin, it->numbers, &all, first, count);
}

static uint8_t end_tag(const void *inputs, const struct argon2_block *last, size_t count) {
    const struct tag_inputs *it = inputs;
    return CALL(cred_argon2_end, it->numbers, last, count, it->tag, it->numbers->tag_size);
}

int rigzumal_argon2_from(void *tag, size_t tag_size, const struct rigzumal_argon2 *numbers,
                         const struct rigzumal_inputs *inputs) {
    int fault = null_fault(inputs);
    if (fault != RIGZUMAL_OK)
        return fault;
    struct tag_numbers of_parts = {*numbers, (uint32_t)tag_size};
    uint32_t threads = lanes_useful_threads(&of_parts, inputs->threads);
    if (threads == 1 || tag_size > UINT32_MAX) {
        struct argon2_inputs all = {PROVED(inputs)};
        return cleared(CALL(cred_argon2, numbers, &all, tag_size == 0 ? NOTHING : tag, tag_size));
    }
    struct tag_inputs made = {&of_parts, inputs, tag};
    struct task task = {of_parts, begin_tag, end_tag, &made, NULL};
    return cleared(lanes_work(&task, threads));
}

int rigzumal_argon2_threads(void *tag, size_t tag_size, const struct rigzumal_argon2 *numbers,
                            const void *password, size_t password_size, const void *salt,
                            size_t salt_size, const void *secret, size_t secret_size,
                            const void *associated, size_t associated_size, uint32_t threads) {
    struct rigzumal_inputs inputs = {password,   password_size,   salt,
                                     salt_size,  secret,          secret_size,
                                     associated, associated_size, threads};
    return rigzumal_argon2_from(tag, tag_size, numbers, &inputs);
}

/* The inputs of a record's check, or of a new record. */
struct text_inputs {
    const struct setting_reading *setting;
    const struct record_reading *record;
    const void *password;
    size_t password_size;
    char *text;
    size_t text_size, *written;
};

static uint8_t begin_text(const void *inputs, struct argon2_block *first, size_t count) {
    const struct text_inputs *it = inputs;
    return CALL(cred_read_begin, it->setting, BYTES(it->password, it->password_size), first, count);
}

static uint8_t end_check(const void *inputs, const struct argon2_block *last, size_t count) {
    const struct text_inputs *it = inputs;
    return CALL(cred_check_end, it->record, last, count);
}

static uint8_t end_record(const void *inputs, const struct argon2_block *last, size_t count) {
    const struct text_inputs *it = inputs;
    return CALL(cred_hash_end, it->setting, last, count, ROOM(it->text, it->text_size),
                it->written);
}

int rigzumal_check_threads(const char *record, const void *password, size_t password_size,
                           uint32_t threads) {
    int fault = null_password_fault(password, password_size);
    if (fault != RIGZUMAL_OK)
        return fault;
    struct record_reading reading;
    bool is_read = threads > 1 && CALL(cred_check_read, TEXT(record), &reading) == RIGZUMAL_OK;
    threads = is_read ? lanes_useful_threads(&reading.setting.numbers, threads) : 1;
    if (threads == 1) {
        fault = CALL(cred_check, TEXT(record), BYTES(password, password_size));
    } else {
        struct text_inputs inputs = {.setting = &reading.setting,
                                     .record = &reading,
                                     .password = password,
                                     .password_size = password_size};
        struct task task = {reading.setting.numbers, begin_text, end_check, &inputs, NULL};
        fault = lanes_work(&task, threads);
    }
    explicit_bzero(reading.tag, sizeof reading.tag);
    return cleared(fault);
}

int rigzumal_record_threads(char *text, size_t text_size, size_t tag_size, const char *costs,
                            const void *salt, size_t salt_size, const void *password,
                            size_t password_size, uint32_t threads) {
    struct setting setting;
    int fault = null_password_fault(password, password_size);
    if (fault == RIGZUMAL_OK)
        fault = setting_make(&setting, costs, salt, salt_size);
    if (fault != RIGZUMAL_OK)
        return fault;
    uint32_t size = narrow_tag_size(tag_size);
    struct setting_reading reading;
    bool is_read = threads > 1 &&
                   CALL(cred_hash_read, setting.text, setting.size, size, &reading) == RIGZUMAL_OK;
    threads = is_read ? lanes_useful_threads(&reading.numbers, threads) : 1;
    size_t written = 0;
    if (threads == 1) {
        fault = CALL(cred_hash, setting.text, setting.size, size, BYTES(password, password_size),
                     ROOM(text, text_size), &written);
    } else {
        struct text_inputs inputs = {.setting = &reading,
                                     .password = password,
                                     .password_size = password_size,
                                     .text = text,
                                     .text_size = text_size,
                                     .written = &written};
        struct task task = {reading.numbers, begin_text, end_record, &inputs, NULL};
        fault = lanes_work(&task, threads);
    }
    return ended(fault, text, written);
}
