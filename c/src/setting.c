#define _GNU_SOURCE
#include "setting.h"

#include "base64.h"
#include "rigzumal.h"

#include <errno.h>
#include <string.h>
#include <sys/random.h>

static int draw(uint8_t *to, size_t size) {
    while (size > 0) {
        ssize_t drawn = getrandom(to, size, 0);
        if (drawn < 0 && errno == EINTR)
            continue;
        if (drawn <= 0)
            return RIGZUMAL_NO_RANDOM;
        to += drawn;
        size -= (size_t)drawn;
    }
    return RIGZUMAL_OK;
}

int setting_make(struct setting *setting, const char *costs, const void *salt, size_t salt_size) {
    size_t costs_size = strlen(costs);
    if (costs_size > LONGEST_TEXT)
        return RIGZUMAL_TOO_LONG;
    memcpy(setting->text, costs, costs_size + 1);
    setting->size = costs_size;
    if (salt_size == 0)
        return RIGZUMAL_OK;
    if (salt_size > LONGEST_TEXT || costs_size + 1 + base64_size(salt_size) > LONGEST_TEXT)
        return RIGZUMAL_TOO_LONG;
    uint8_t drawn[LONGEST_TEXT];
    int fault = salt == NULL ? draw(drawn, salt_size) : RIGZUMAL_OK;
    if (fault != RIGZUMAL_OK)
        return fault;
    setting->text[costs_size] = '$';
    base64_write(setting->text + costs_size + 1, salt == NULL ? drawn : salt, salt_size);
    setting->size += 1 + base64_size(salt_size);
    setting->text[setting->size] = '\0';
    return RIGZUMAL_OK;
}
