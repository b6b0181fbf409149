/* Settings: costs followed by a salt, as a text. */
#pragma once

#include "rigzumal.h"

#include <stdbool.h>
#include <stddef.h>
#include <stdint.h>

enum { LONGEST_TEXT = 512 };

struct setting {
    uint8_t text[LONGEST_TEXT + 1]; /* with a zero byte */
    size_t size;                    /* without it */
};

/* Appends the salt to the costs, if its size isn't 0, and generates the salt if it is null.
 * Faults: TOO_LONG, NO_RANDOM. */
int setting_make(struct setting *setting, const char *costs, const void *salt, size_t salt_size);

/* Returns the size of a tag for the proved code: 0, which that code refuses, if the size doesn't
 * fit. */
static inline uint32_t narrow_tag_size(size_t size) {
    return size > UINT32_MAX ? 0 : (uint32_t)size;
}

/* Whether the schemes, the versions and the costs are equal. */
bool has_same_costs(const struct rigzumal_parts *one, const struct rigzumal_parts *other);
