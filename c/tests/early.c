/* A program's own constructor starts a thread that hashes, as one of C++ or Rust may. In a program
 * with the library's archive that constructor runs before those of the library. The hash is right,
 * though it begins before them and ends after them. */
#include "check.h"
#include "heap.h"
#include "rigzumal.h"

#include <pthread.h>
#include <semaphore.h>
#include <stdbool.h>

enum { LARGE = 64 * 1024 };

static pthread_t thread;
static sem_t has_large_block, is_main;
static int fault = -1;

/* Holds the call at its first large block until main runs. */
WRAP(struct tried, rattle_alloc, size_t size, size_t align) {
    static bool was_held;
    struct tried tried = __real_rattle_alloc(size, align);
    if (size >= LARGE && !was_held) {
        was_held = true;
        CHECK(sem_post(&has_large_block) == 0 && sem_wait(&is_main) == 0);
    }
    return tried;
}

static void *hash(void *unused) {
    static const char record[] = "$argon2id$v=19$m=1024,t=1,p=1$c29tZXNhbHQ$AAAAAA";
    fault = rigzumal_check(record, LITERAL("password"));
    CHECK(sem_post(&has_large_block) == 0);
    return unused;
}

__attribute__((constructor)) static void begin_hash(void) {
    CHECK(sem_init(&has_large_block, 0, 0) == 0 && sem_init(&is_main, 0, 0) == 0);
    CHECK(pthread_create(&thread, NULL, hash, NULL) == 0);
    CHECK(sem_wait(&has_large_block) == 0);
    CHECK_NUMBER(fault, -1);
}

int main(void) {
    CHECK(sem_post(&is_main) == 0 && pthread_join(thread, NULL) == 0);
    CHECK_NUMBER(fault, RIGZUMAL_MISMATCH);
    return 0;
}
