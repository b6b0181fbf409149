/* Base64 (RFC 4648, section 4) without padding, of bytes and letters that may be secret. The calls
 * use arithmetic alone, no table, and no branch on a letter except to tell whether it is one. */
#pragma once

#include <stddef.h>
#include <stdint.h>

/* Returns the number of letters for this many bytes. */
size_t base64_size(size_t size);

/* Writes the letters of the bytes. */
void base64_write(uint8_t *text, const uint8_t *from, size_t size);

/* Returns the six bits that a letter encodes, or -1. */
int base64_value(uint8_t letter);
