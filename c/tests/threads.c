/* Threads that call at the same time, with areas that pass from one thread to another. Each turn
 * has another number of threads in a call. */
#include "check.h"
#include "rigzumal.h"

#include <pthread.h>

enum { THREADS = 8, TURNS = 12 };

static unsigned char wanted[3][32];

static void make_tag(unsigned char *tag, int which, uint32_t threads) {
    static const struct rigzumal_argon2 numbers[3] = {
        {RIGZUMAL_ARGON2ID, RIGZUMAL_VERSION_13, 64, 1, 2},
        {RIGZUMAL_ARGON2ID, RIGZUMAL_VERSION_13, 4096, 1, 3},
        {RIGZUMAL_ARGON2ID, RIGZUMAL_VERSION_13, 24576, 1, 1},
    };
    CHECK_NUMBER(rigzumal_argon2_threads(tag, 32, &numbers[which], "password", 8, "somesalt", 8,
                                         NULL, 0, NULL, 0, threads),
                 RIGZUMAL_OK);
}

/* Builds a record with a generated salt, and reads the parts of texts: each thread has its own. */
static void try_texts(void) {
    char record[RIGZUMAL_TEXT_SIZE], said[32];
    struct rigzumal_parts parts;
    CHECK_NUMBER(rigzumal_record(ARRAY(record), 32, "$argon2id$v=19$m=8,t=1,p=1", NULL, 16,
                                 LITERAL("password")),
                 RIGZUMAL_OK);
    CHECK_NUMBER(rigzumal_check(record, LITERAL("password")), RIGZUMAL_OK);
    CHECK_NUMBER(rigzumal_parts(&parts, "$scrypt$ln=1,r=1,p=1"), RIGZUMAL_OK);
    CHECK_NUMBER(rigzumal_explain(ARRAY(said), "$scrypt$ln=0,r=8,p=1"), RIGZUMAL_RANGE);
    CHECK(strcmp(said, "ln=0 is under 1") == 0);
}

static void *work(void *first) {
    for (int turn = 0; turn < TURNS; turn++) {
        int which = (*(int *)first + turn) % 3;
        unsigned char tag[32];
        make_tag(tag, which, (uint32_t)turn % 4);
        CHECK(memcmp(tag, wanted[which], sizeof tag) == 0);
        try_texts();
    }
    return NULL;
}

int main(void) {
    for (int which = 0; which < 3; which++)
        make_tag(wanted[which], which, 1);
    pthread_t threads[THREADS];
    int firsts[THREADS];
    for (int i = 0; i < THREADS; i++) {
        firsts[i] = i;
        CHECK(pthread_create(&threads[i], NULL, work, &firsts[i]) == 0);
    }
    for (int i = 0; i < THREADS; i++)
        CHECK(pthread_join(threads[i], NULL) == 0);
    return 0;
}
