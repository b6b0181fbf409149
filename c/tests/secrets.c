/* No conditional jump and no address depends on a secret. The program marks the passwords, tags and
 * letters of tags as undefined, and valgrind's memcheck counts the jumps and addresses that depend
 * on them. A call that judges a tag has one such jump, by the verdict, whichever byte is wrong. */
#include "check.h"
#include "jobs.h"

#include <stdbool.h>
#include <stdint.h>
#include <valgrind/memcheck.h>

static struct vault vault;

static void hide(void *start, size_t size) {
    VALGRIND_MAKE_MEM_UNDEFINED(start, size);
}

static void show(void *start, size_t size) {
    VALGRIND_MAKE_MEM_DEFINED(start, size);
}

/* A comparison that stops at the first wrong byte, which tests the count itself. */
static int leaking_check(struct vault *it) {
    int is_same = 1;
    for (size_t i = 0; i < sizeof it->password && is_same; i++)
        is_same = it->password[i] == it->made[i];
    return is_same ? RIGZUMAL_OK : RIGZUMAL_MISMATCH;
}

static struct job watched_job(const char *name) {
    const struct job *found = job_of(name);
    if (found != NULL)
        return *found;
    CHECK(strcmp(name, "leaking_check") == 0);
    memcpy(vault.made, vault.password, sizeof vault.password);
    return (struct job){name, leaking_check, RIGZUMAL_OK, NO_TROUBLE, 0};
}

/* The index of the wrong byte in the text's tag. */
enum damage { NO_BYTE, FIRST_BYTE, LAST_BYTE, DAMAGES };

/* Replaces a letter by another one. The last letter has unused bits, which are 0. */
static void do_damage(char *text, enum damage damage) {
    char *first = strrchr(text, '$') + 1, *last = text + strlen(text) - 1;
    char *at = damage == FIRST_BYTE ? first : last;
    if (damage != NO_BYTE)
        *at = *at == 'A' ? 'g' : 'A';
}

/* Returns the number of jumps and addresses that depend on secrets in a call with this answer. */
static unsigned leaks_of(const struct job *job, int wanted) {
    hide(ARRAY(vault.password));
    hide(ARRAY(vault.secret));
    hide(ARRAY(vault.tag));
    unsigned before = VALGRIND_COUNT_ERRORS;
    int answer = answer_of(job, &vault);
    show(&answer, sizeof answer);
    unsigned leaks = VALGRIND_COUNT_ERRORS - before;
    show(&vault, sizeof vault);
    CHECK_NUMBER(answer, wanted);
    return leaks;
}

/* Returns the text whose tag a call judges. */
static char *judged_by(const struct job *job) {
    if (strstr(job->name, "long tag") != NULL)
        return vault.long_string;
    bool has_secret = strstr(job->name, "_from") != NULL || strstr(job->name, "_secret") != NULL;
    return has_secret ? vault.record_with_secret : vault.record;
}

/* A call that judges a tag branches on the verdict this many times. */
static void try_judgement(const struct job *job, unsigned looks) {
    int mismatch = strncmp(job->name, "argon2", 6) == 0 ? -35 : RIGZUMAL_MISMATCH;
    for (enum damage damage = NO_BYTE; damage < DAMAGES; damage++) {
        fill_vault(&vault);
        do_damage(judged_by(job), damage);
        CHECK(leaks_of(job, damage == NO_BYTE ? job->answer : mismatch) <= looks);
    }
}

/* Marks the letters of the record's tag as secret, for the reading of a text: only
 * `rigzumal_record_fault` runs with this mark, since the verdict of a check depends on the tag. */
static void hide_letters(void) {
    char *letters = strrchr(vault.record, '$') + 1;
    hide(letters, strlen(letters));
}

/* The arguments: the name of a call, the kind of tags ("i", "id", or "old" for 0x10), and, if the
 * call judges a tag, the number of its branches on the verdict. */
int main(int count, char **words) {
    CHECK(count >= 3 && RUNNING_ON_VALGRIND);
    look_at = show;
    job_kind = strcmp(words[2], "id") == 0 ? RIGZUMAL_ARGON2ID : RIGZUMAL_ARGON2I;
    if (strcmp(words[2], "old") == 0)
        job_version = RIGZUMAL_VERSION_10;
    fill_vault(&vault);
    struct job job = watched_job(words[1]);
    if (count > 3) {
        try_judgement(&job, (unsigned)atoi(words[3]));
        return 0;
    }
    if (strcmp(words[1], "rigzumal_record_fault") == 0)
        hide_letters();
    unsigned leaks = leaks_of(&job, job.answer);
    CHECK(job.call != leaking_check || leaks > 1);
    return 0;
}
