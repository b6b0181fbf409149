/* Each call of rigzumal.h and argon2.h that reads a secret, with its secrets in one place. */
#pragma once

#include "rigzumal.h"

#include <stddef.h>

enum { TAG = 40, KEY = 48, ENCODED = 200, LONG_TAG = 80, TEXT_ROOM = RIGZUMAL_TEXT_SIZE };

/* The fault of a call's inputs. */
enum trouble { NO_TROUBLE, OTHER_PASSWORD, OTHER_SECRET, BAD_RECORD, LITTLE_ROOM };

/* All secrets and all output: after a call no other memory may contain a part of them. */
struct vault {
    unsigned char password[48], secret[40];
    unsigned char given_password[48], given_secret[40]; /* those that a call clears */
    unsigned char tag[TAG], tag_with_secret[TAG], key[KEY], long_tag[LONG_TAG];
    char long_string[ENCODED]; /* of argon2.h, with the long tag */
    char record[TEXT_ROOM], record_with_secret[TEXT_ROOM], scrypt_record[TEXT_ROOM];
    char bad_record[TEXT_ROOM];   /* with a field too many */
    char cheap_record[TEXT_ROOM]; /* with a cost out of range */
    char setting[TEXT_ROOM];      /* with the tag in the place of the salt */
    char text[TEXT_ROOM];
    unsigned char made[LONG_TAG];
    const struct job *job; /* the running one */
};

struct job {
    const char *name;
    int (*call)(struct vault *vault);
    int answer;
    enum trouble trouble;
    uint32_t number; /* a cost, an operation or a size, if it differs between jobs */
};

extern const struct job jobs[];
extern const int job_count;

/* The kind and the version of the tags: Argon2id and 0x13, unless a test sets others. */
extern uint32_t job_kind, job_version;

/* A test's function that sees an answer before the job does, or null. */
extern void (*look_at)(void *answer, size_t size);

/* Returns the job of this name, or null. */
const struct job *job_of(const char *name);

/* Fills the vault: the secrets by a rule, and the rest by the calls. */
void fill_vault(struct vault *vault);

/* Returns the answer of a job's call. */
int answer_of(const struct job *job, struct vault *vault);
