#include "base64.h"

size_t base64_size(size_t size) {
    return size / 3 * 4 + (size % 3 == 0 ? 0 : size % 3 + 1);
}

/* All ones if the number is below the limit, otherwise zero: both are below 2^31. */
static uint32_t is_below(uint32_t number, uint32_t limit) {
    return 0u - ((number - limit) >> 31);
}

/* All ones if first <= number <= last, otherwise zero. */
static uint32_t is_within(uint32_t number, uint32_t first, uint32_t last) {
    return is_below(number, last + 1) & ~is_below(number, first);
}

static uint8_t letter_of(uint32_t value) {
    return (uint8_t)((is_within(value, 0, 25) & ('A' + value)) |
                     (is_within(value, 26, 51) & ('a' - 26 + value)) |
                     (is_within(value, 52, 61) & (value + '0' - 52)) |
                     (is_within(value, 62, 62) & '+') | (is_within(value, 63, 63) & '/'));
}

int base64_value(uint8_t letter) {
    uint32_t value = (is_within(letter, 'A', 'Z') & (letter - 'A' + 1u)) |
                     (is_within(letter, 'a', 'z') & (letter - 'a' + 27u)) |
                     (is_within(letter, '0', '9') & (letter - '0' + 53u)) |
                     (is_within(letter, '+', '+') & 63u) | (is_within(letter, '/', '/') & 64u);
    return (int)value - 1;
}

void base64_write(uint8_t *text, const uint8_t *from, size_t size) {
    uint32_t waiting = 0;
    int bits = 0;
    for (size_t i = 0; i < size; i++) {
        waiting = waiting << 8 | from[i];
        for (bits += 8; bits >= 6; bits -= 6)
            *text++ = letter_of(waiting >> (bits - 6) & 63);
    }
    if (bits > 0)
        *text = letter_of(waiting << (6 - bits) & 63);
}
