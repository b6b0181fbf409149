/* The calls that read a text and hash nothing. */
#include "builds.h"
#include "secrets.h"
#include "setting.h"

int rigzumal_record_fault(const char *record) {
    return cleared(CALL(cred_record_fault, TEXT(record)));
}

int rigzumal_setting_fault(const char *setting) {
    return cleared(CALL(cred_setting_fault, TEXT(setting)));
}

/* A salt of 8 bytes and a tag of 4, which make costs and a setting into a record. */
static const char any_salt[] = "$AAAAAAAAAAA", any_tag[] = "$AAAAAA";

/* Reads a text, with these texts after it, as a record, if all but the tag is a setting. */
static uint8_t read_longer(struct rigzumal_parts *parts, const char *text, const char *salt) {
    uint8_t longer[LONGEST_TEXT + sizeof any_salt + sizeof any_tag];
    size_t size = strlen(text), salt_size = strlen(salt);
    if (size > LONGEST_TEXT)
        return RIGZUMAL_TOO_LONG;
    memcpy(longer, text, size);
    memcpy(longer + size, salt, salt_size);
    size += salt_size;
    uint8_t fault = CALL(cred_setting_fault, longer, size);
    if (fault != RIGZUMAL_OK)
        return fault;
    memcpy(longer + size, any_tag, strlen(any_tag));
    return CALL(cred_record_parts, longer, size + strlen(any_tag), parts);
}

/* A setting lacks a field of a record, and costs lack a field of a setting. */
int rigzumal_parts(struct rigzumal_parts *parts, const char *text) {
    struct rigzumal_parts read;
    uint8_t fault = CALL(cred_record_parts, TEXT(text), &read);
    if (fault == RIGZUMAL_SHAPE) {
        fault = read_longer(&read, text, "");
        read.tag_size = 0;
    }
    if (fault == RIGZUMAL_SHAPE && read_longer(&read, text, any_salt) == RIGZUMAL_OK) {
        fault = RIGZUMAL_OK;
        read.salt_size = read.tag_size = 0;
    }
    if (fault == RIGZUMAL_OK)
        *parts = read;
    return cleared(fault);
}

bool has_same_costs(const struct rigzumal_parts *one, const struct rigzumal_parts *other) {
    return one->scheme == other->scheme && one->version == other->version &&
           one->memory == other->memory && one->passes == other->passes &&
           one->lanes == other->lanes;
}

int rigzumal_needs_rehash(const char *record, const char *costs, size_t salt_size,
                          size_t tag_size) {
    struct rigzumal_parts found, wanted;
    int fault = cleared(CALL(cred_record_parts, TEXT(record), &found));
    if (fault == RIGZUMAL_OK)
        fault = rigzumal_parts(&wanted, costs);
    if (fault != RIGZUMAL_OK)
        return fault;
    if (wanted.tag_size != 0 || (wanted.salt_size != 0 && salt_size != 0))
        return RIGZUMAL_SHAPE;
    bool is_new = has_same_costs(&found, &wanted) &&
                  found.salt_size == wanted.salt_size + salt_size && found.tag_size == tag_size;
    return is_new ? RIGZUMAL_OK : RIGZUMAL_OTHER_COSTS;
}
