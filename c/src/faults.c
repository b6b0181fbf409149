/* The faults in words. */
#include "rigzumal.h"

static const struct {
    const char *word, *meaning;
} faults[] = {
    [RIGZUMAL_OK] = {"ok", "no fault"},
    [RIGZUMAL_SHAPE] = {"shape",
                        "the text does not begin with '$', lacks a field (such as the salt), "
                        "or has one too many"},
    [RIGZUMAL_SCHEME] = {"scheme", "the scheme is none of argon2d, argon2i, argon2id and scrypt"},
    [RIGZUMAL_VERSION] = {"version",
                          "unsupported version: settings have v=19, records v=19, v=16 or none"},
    [RIGZUMAL_PARAMS] = {"params",
                         "the costs are not in the form of the scheme: "
                         "m=65536,t=3,p=4, or ln=17,r=8,p=1 for scrypt"},
    [RIGZUMAL_RANGE] = {"range", "a number is outside its range"},
    [RIGZUMAL_SALT] = {"salt", "the salt is not base64 of 8 to 48 bytes (scrypt: 1 to 48)"},
    [RIGZUMAL_TAG] = {"tag",
                      "the tag is not base64 of 4 to 64 bytes; a space or a line "
                      "end after it counts"},
    [RIGZUMAL_MEMORY] = {"memory", "out of memory"},
    [RIGZUMAL_TOO_LONG] = {"toolong", "the text has over 512 bytes"},
    [RIGZUMAL_MISMATCH] = {"mismatch", "the record is of another password"},
    [RIGZUMAL_NO_ROOM] = {"noroom",
                          "the buffer for the text is too small: RIGZUMAL_TEXT_SIZE is enough"},
    [RIGZUMAL_NO_KIND] = {"nokind", "no kind of Argon2 has this number"},
    [RIGZUMAL_NO_VERSION] = {"noversion", "no version of Argon2 has this number"},
    [RIGZUMAL_LANES] = {"lanes", "the number of lanes is not 1 to 255"},
    [RIGZUMAL_COST] = {"cost", "the memory is not 8 KiB a lane to 2 GiB"},
    [RIGZUMAL_PASSES] = {"passes", "the number of passes is 0"},
    [RIGZUMAL_TAG_SIZE_FAULT] = {"tagsize", "the tag size is not 4 to 2^32 - 1 bytes"},
    [RIGZUMAL_INPUT_SIZE] = {"inputsize", "an input has 2^32 bytes or more"},
    [RIGZUMAL_SCRYPT_COST] = {"scryptcost",
                              "the cost is out of range, or too high for the block "
                              "size or for a table of 2 GiB"},
    [RIGZUMAL_BLOCK_SIZE] = {"blocksize", "the block size is not 1 to 255"},
    [RIGZUMAL_BLOCKS] = {"blocks", "the parallelization is not 1 to 255"},
    [RIGZUMAL_KEY_SIZE] = {"keysize", "the key size is not 1 to 2^32 - 1 bytes"},
    [RIGZUMAL_NO_OPERATION] = {"nooperation", "no operation has this number"},
    [RIGZUMAL_COPY] = {"copy", "the copy is not a record"},
    [RIGZUMAL_LONG_PASSWORD] = {"longpassword", "a password has over 256 bytes"},
    [RIGZUMAL_NO_RANDOM] = {"norandom", "the system returned no random bytes for a salt"},
    [RIGZUMAL_OTHER_COSTS] = {"othercosts", "the record's costs or sizes differ from a new one's"},
    [RIGZUMAL_NULL_PASSWORD] = {"nullpassword", "the password is null, but its size is not 0"},
    [RIGZUMAL_NULL_SALT] = {"nullsalt", "the salt is null, but its size is not 0"},
    [RIGZUMAL_NULL_SECRET] = {"nullsecret", "the secret is null, but its size is not 0"},
    [RIGZUMAL_NULL_ASSOCIATED] = {"nullassociated",
                                  "the associated data is null, but its size is not 0"},
};

enum { FAULTS = sizeof faults / sizeof faults[0] };

const char *rigzumal_strerror(int fault) {
    return fault < 0 || fault >= FAULTS ? "no such fault" : faults[fault].meaning;
}

const char *rigzumal_word(int fault) {
    return fault < 0 || fault >= FAULTS ? "unknown" : faults[fault].word;
}
