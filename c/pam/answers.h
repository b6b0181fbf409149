/* The meanings for PAM of answers to a password, except those that differ by operation.
 * Any other answer is PAM_AUTHINFO_UNAVAIL. tools/protocol.py writes this file. */
#ifndef RIGZUMAL_PAM_ANSWERS_H
#define RIGZUMAL_PAM_ANSWERS_H

#include <security/pam_modules.h>
#include <stddef.h>

struct answer {
    const char *word;
    int result;
    const char *text; /* the text for the user, or NULL */
};

static const struct answer ANSWERS[] = {
    {"no", PAM_AUTH_ERR, NULL},
    {"wrong", PAM_AUTH_ERR, NULL},
    {"noaccount", PAM_USER_UNKNOWN, NULL},
    {"short", PAM_AUTHTOK_ERR, "The new password is too short."},
    {"same", PAM_AUTHTOK_ERR, "The new password is the old one."},
    {"later", PAM_MAXTRIES, NULL},
    {"bad 3 name", PAM_USER_UNKNOWN, NULL},
    {"bad 19 disk", PAM_AUTHTOK_ERR, "The server's disk is full: the password stays as it was."},
};

#endif
