/* The strings of argon2.h, by the original's rules: salts and tags of any size, while a record of
 * rigzumal.h holds up to 48 and 64 bytes. */
#define _GNU_SOURCE
#include "base64.h"
#include "libargon2.h"
#include "rigzumal.h"

#include <stdio.h>
#include <stdlib.h>
#include <string.h>

/* Each of these functions reads from *text on, and advances *text, or returns false. */

static bool read_word(const char **text, const char *word) {
    size_t size = strlen(word);
    bool is_there = strncmp(*text, word, size) == 0;
    *text += is_there ? size : 0;
    return is_there;
}

static bool read_number(const char **text, uint32_t *number) {
    static const char digits[] = "0123456789";
    size_t size = strspn(*text, digits);
    if (size == 0 || size > 10 || (**text == '0' && size > 1))
        return false;
    unsigned long long read = strtoull(*text, NULL, 10);
    *number = (uint32_t)read;
    *text += size;
    return read <= UINT32_MAX;
}

/* A char below zero reads as '/', as in the original; on ARM64, chars have no sign, and none is
 * below zero. The letters decide only where the reading ends. */
static int value_of(char letter) {
    uint8_t is_negative = (uint8_t)(0u - ((uint32_t)letter >> 31));
    return base64_value((uint8_t)(((uint8_t)letter & ~is_negative) | ('/' & is_negative)));
}

/* Reads base64 into up to *size bytes; the unused bits at the end must be zero. */
static bool read_bytes(const char **text, uint8_t *to, uint32_t *size) {
    uint32_t waiting = 0, count = 0;
    int bits = 0, value;
    for (; (value = value_of(**text)) >= 0; (*text)++) {
        waiting = waiting << 6 | (uint32_t)value;
        bits += 6;
        if (bits < 8)
            continue;
        bits -= 8;
        if (count == *size)
            return false;
        to[count++] = (uint8_t)(waiting >> bits);
    }
    *size = count;
    return bits <= 4 && (waiting & ((1u << bits) - 1)) == 0;
}

const char *read_string(argon2_context *read, const char *text) {
    read->version = RIGZUMAL_VERSION_10;
    bool is_read = (!read_word(&text, "$v=") || read_number(&text, &read->version)) &&
                   read_word(&text, "$m=") && read_number(&text, &read->m_cost) &&
                   read_word(&text, ",t=") && read_number(&text, &read->t_cost) &&
                   read_word(&text, ",p=") && read_number(&text, &read->lanes) &&
                   read_word(&text, "$") && read_bytes(&text, read->salt, &read->saltlen) &&
                   read_word(&text, "$") && read_bytes(&text, read->out, &read->outlen);
    return is_read ? text : NULL;
}

bool write_string(char *text, size_t size, const argon2_context *context, argon2_type type) {
    char numbers[sizeof "$argon2id$v=4294967295$m=4294967295,t=4294967295,p=4294967295$"];
    int length =
        snprintf(numbers, sizeof numbers, "$%s$v=%u$m=%u,t=%u,p=%u$", argon2_type2string(type, 0),
                 context->version, context->m_cost, context->t_cost, context->lanes);
    size_t salt_size = base64_size(context->saltlen), tag_size = base64_size(context->outlen);
    if ((size_t)length + salt_size + 1 + tag_size + 1 > size)
        return false;
    memcpy(text, numbers, (size_t)length);
    text += length;
    base64_write((uint8_t *)text, context->salt, context->saltlen);
    text[salt_size] = '$';
    base64_write((uint8_t *)text + salt_size + 1, context->out, context->outlen);
    text[salt_size + 1 + tag_size] = '\0';
    return true;
}

PUBLIC size_t argon2_encodedlen(uint32_t t_cost, uint32_t m_cost, uint32_t parallelism,
                                uint32_t saltlen, uint32_t hashlen, argon2_type type) {
    const char *name = argon2_type2string(type, 0);
    int size = snprintf(NULL, 0, "$%s$v=19$m=%u,t=%u,p=%u$$", name == NULL ? "" : name, m_cost,
                        t_cost, parallelism);
    size_t salt_size = ((size_t)saltlen * 4 + 2) / 3;
    size_t tag_size = ((size_t)hashlen * 4 + 2) / 3;
    return (size_t)size + salt_size + tag_size + 1;
}
