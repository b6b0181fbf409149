/* The fault of a text in words, with the number that is out of its range. */
#include "rigzumal.h"

#include "secrets.h"

#include <inttypes.h>
#include <stdbool.h>
#include <stdio.h>
#include <stdlib.h>
#include <string.h>

enum { MOST_LANES = 255, MOST_MEMORY = 2097152, MOST_ROWS = 16777216 };

/* Returns the number behind a label, such as "m=", at the front of a field, or 0 if no field has
 * the label. Digits that don't fit count as the largest number. */
static uint64_t number_of(const char *text, const char *label) {
    size_t size = strlen(label);
    while ((text = strpbrk(text, "$,")) != NULL) {
        if (strncmp(++text, label, size) == 0)
            return strtoull(text + size, NULL, 10);
    }
    return 0;
}

/* Returns whether a number is out of its range, which begins at 1, and writes the range if so. */
static bool is_out(char *text, size_t text_size, char name, uint64_t number, uint64_t most) {
    if (number >= 1 && number <= most)
        return false;
    snprintf(text, text_size, "%c=%" PRIu64 " is not from 1 to %" PRIu64, name, number, most);
    return true;
}

static void explain_argon2(char *text, size_t text_size, const char *record) {
    uint64_t memory = number_of(record, "m="), lanes = number_of(record, "p=");
    if (is_out(text, text_size, 'p', lanes, MOST_LANES) ||
        is_out(text, text_size, 't', number_of(record, "t="), UINT32_MAX))
        return;
    if (memory < 8 * lanes)
        snprintf(text, text_size, "m=%" PRIu64 " is under 8 p (%" PRIu64 " KiB)", memory,
                 8 * lanes);
    else
        snprintf(text, text_size, "m=%" PRIu64 " is over %d (KiB)", memory, MOST_MEMORY);
}

static void explain_scrypt(char *text, size_t text_size, const char *record) {
    uint64_t ln = number_of(record, "ln="), r = number_of(record, "r=");
    if (is_out(text, text_size, 'r', r, MOST_LANES) ||
        is_out(text, text_size, 'p', number_of(record, "p="), MOST_LANES))
        return;
    if (ln < 1)
        snprintf(text, text_size, "ln=0 is under 1");
    else if (ln >= 16 * r)
        snprintf(text, text_size, "ln=%" PRIu64 " is not under 16 r (%" PRIu64 ")", ln, 16 * r);
    else
        snprintf(text, text_size, "ln=%" PRIu64 ": r times 2^ln is over %d", ln, MOST_ROWS);
}

int rigzumal_explain(char *text, size_t text_size, const char *record) {
    struct rigzumal_parts parts;
    int fault = rigzumal_parts(&parts, record);
    if (fault != RIGZUMAL_RANGE)
        snprintf(text, text_size, "%s", rigzumal_strerror(fault));
    else if (strncmp(record, "$scrypt$", strlen("$scrypt$")) == 0)
        explain_scrypt(text, text_size, record);
    else
        explain_argon2(text, text_size, record);
    return cleared(fault);
}
