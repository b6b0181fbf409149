/* After each call, only the caller's own memory contains eight bytes of the password, the secret,
 * the tag or the tag's letters: no other memory of the process does, and no vector register. Each
 * call runs on its own stack. Its thread then spins without a further call, while this one looks.
 *
 * If a flag of argon2.h clears the inputs, they are gone once a tag in parts has begun, with their
 * hash, H0 of RFC 9106, section 3.2: the first segment looks for them. The test that runs this
 * program passes the hash in hexadecimal. */
#define _GNU_SOURCE
#include "builds.h"
#include "check.h"
#include "jobs.h"
#include "stored.h"
#include "windows.h"

#include <pthread.h>
#include <sched.h>
#include <stdatomic.h>

enum { STACK = 256 * 1024, HASH = 64 };

extern struct build given_build;
static struct vault *vault;

static void add_letters(const char *record) {
    const char *letters = strrchr(record, '$') + 1;
    add_windows(letters, strlen(letters));
}

static const struct job *job;

/* The build's own functions, which look_first and look_first_of_two replace. */
static __typeof__(cred_argon2_segment) *work_segment, *work_two_segments;
static int looks, found_begun;

static void look_before(const struct segment_index *index) {
    if (strstr(job->name, "clears") != NULL && index->slice == 0 && index->lane == 0) {
        looks++;
        found_begun += found_in_process(job->name, vault);
        CHECK(is_all(vault->given_password, 0, sizeof vault->given_password));
        CHECK(is_all(vault->given_secret, 0, sizeof vault->given_secret));
    }
}

static uint8_t look_first(const struct tag_numbers *numbers, const struct segment_index *index,
                          const struct argon2_block *oldest, size_t oldest_count,
                          const struct argon2_block *middle, size_t middle_count,
                          const struct argon2_block *newest, size_t newest_count,
                          struct argon2_block *own, size_t own_count) {
    look_before(index);
    return work_segment(numbers, index, oldest, oldest_count, middle, middle_count, newest,
                        newest_count, own, own_count);
}

static uint8_t look_first_of_two(const struct tag_numbers *numbers,
                                 const struct segment_index *index,
                                 const struct argon2_block *oldest, size_t oldest_count,
                                 const struct argon2_block *middle, size_t middle_count,
                                 const struct argon2_block *newest, size_t newest_count,
                                 struct argon2_block *own, size_t own_count) {
    look_before(index);
    return work_two_segments(numbers, index, oldest, oldest_count, middle, middle_count, newest,
                             newest_count, own, own_count);
}

static _Atomic(int) is_done, may_end;
static int answer;
static struct vectors vectors;
static struct stored registers;

static void *make_call(void *unused) {
    answer = answer_of(job, vault);
    store_registers(vectors, &registers);
    atomic_store(&is_done, 1);
    while (!atomic_load(&may_end))
        continue;
    return unused;
}

static int found_after(const struct job *tried) {
    rigzumal_trim(); /* so that the memory kept afterwards is this call's */
    job = tried;
    atomic_store(&is_done, 0);
    atomic_store(&may_end, 0);
    pthread_attr_t attributes;
    pthread_t thread;
    CHECK(pthread_attr_init(&attributes) == 0);
    CHECK(pthread_attr_setstacksize(&attributes, STACK) == 0);
    CHECK(pthread_create(&thread, &attributes, make_call, NULL) == 0);
    while (!atomic_load(&is_done))
        sched_yield();
    int found = found_in_process(tried->name, vault);
    atomic_store(&may_end, 1);
    CHECK(pthread_join(thread, NULL) == 0);
    pthread_attr_destroy(&attributes);
    CHECK_NUMBER(answer, tried->answer);
    return found;
}

/* A call that leaves a copy of the tag tests the scan itself. */
extern unsigned char left_behind[WINDOW];
unsigned char left_behind[WINDOW];

static int leaves_a_copy(struct vault *from) {
    memcpy(left_behind, from->tag + 3, WINDOW);
    return RIGZUMAL_OK;
}

/* processor_clear_bytes clears as many bytes as its size says, and no others. */
static void try_clearing(void) {
    unsigned char bytes[64];
    memset(bytes, 0x5a, sizeof bytes);
    processor_clear_bytes(bytes + 16, 32);
    CHECK(is_all(bytes, 0x5a, 16) && is_all(bytes + 16, 0, 32) && is_all(bytes + 48, 0x5a, 16));
}

/* Fills the mapping with the bytes that may be nowhere else: the secrets, and then their hash. */
static void make_vault(const char *digits) {
    vault = map_apart(sizeof *vault + HASH);
    fill_vault(vault);
    unsigned char *hash = (unsigned char *)(vault + 1);
    CHECK(strlen(digits) == 2 * HASH);
    for (int i = 0; i < HASH; i++)
        CHECK(sscanf(digits + 2 * i, "%2hhx", &hash[i]) == 1);
    add_windows(hash, HASH);
    add_windows(ARRAY(vault->password));
    add_windows(ARRAY(vault->secret));
    add_windows(ARRAY(vault->tag));
    add_windows(ARRAY(vault->tag_with_secret));
    add_windows(ARRAY(vault->key));
    add_windows(ARRAY(vault->long_tag));
    add_letters(vault->record);
    add_letters(vault->record_with_secret);
    add_letters(vault->scrypt_record);
    add_letters(vault->long_string);
}

int main(int count, char **words) {
    CHECK(count == 2);
    try_clearing();
    vectors = vectors_here();
    make_vault(words[1]);
    work_segment = given_build.cred_argon2_segment;
    given_build.cred_argon2_segment = look_first;
    work_two_segments = given_build.cred_argon2_two_segments;
    given_build.cred_argon2_two_segments = look_first_of_two;
    int found = 0;
    for (int i = 0; i < job_count; i++) {
        int here = found_after(&jobs[i]);
        if (here > 0)
            fprintf(stderr, "%s: %d traces\n", jobs[i].name, here);
        found += here;
    }
    CHECK_NUMBER(found, 0);
    CHECK_NUMBER(found_begun, 0);
    CHECK_NUMBER(looks, 3);
    struct job leaving = {"as it has to be", leaves_a_copy, RIGZUMAL_OK, NO_TROUBLE, 0};
    CHECK(found_after(&leaving) > 0);
    return 0;
}
