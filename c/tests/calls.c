/* The tests for each processor and each compiler: each call of tests/jobs.c, the values of the
 * standards, and the number of threads that a call starts. */
#include "check.h"
#include "jobs.h"

#include <stdbool.h>

enum { LANES = 4 };

/* From the argon2 program: printf password | argon2 somesalt -id -t 2 -k 256 -p 1 -l 32 -e. */
static const char record[] =
    "$argon2id$v=19$m=256,t=2,p=1$c29tZXNhbHQ$nf65EOgLrQMR/uIPnA4rEsF5h7TKyQwu9U1bMCHGi/4";

extern int started; /* threads, in given_system.c */

/* Whether the bytes equal those of a hexadecimal text. */
static int are_hex(const unsigned char *bytes, size_t size, const char *wanted) {
    for (size_t i = 0; i < size; i++) {
        char two[3];
        snprintf(two, sizeof two, "%02x", bytes[i]);
        if (strncmp(two, wanted + 2 * i, 2) != 0)
            return 0;
    }
    return wanted[2 * size] == '\0';
}

/* RFC 9106, section 5: the inputs of all three vectors, and the tags of 5.1, 5.2 and 5.3, for
 * several numbers of threads. */
static void test_argon2_vectors(void) {
    static const char *const tags[3] = {
        "512b391b6f1162975371d30919734294f868e3be3984f3c1a13a4db9fabe4acb",
        "c814d9d1dc7f37aa13f0d77f2494bda1c8de6b016dd388d29952a4c4672b6ce8",
        "0d640df58d78766c08c037a34a8b53c9d01ef0452d75b65eb52520e96b01e659",
    };
    unsigned char password[32], salt[16], secret[8], associated[12], tag[32];
    memset(password, 1, sizeof password);
    memset(salt, 2, sizeof salt);
    memset(secret, 3, sizeof secret);
    memset(associated, 4, sizeof associated);
    for (uint32_t at = 0; at < 3 * (LANES + 2); at++) {
        uint32_t kind = at % 3, threads = at / 3, most = threads < LANES ? threads : LANES;
        struct rigzumal_argon2 numbers = {kind, RIGZUMAL_VERSION_13, 32, 3, LANES};
        started = 0;
        CHECK_NUMBER(rigzumal_argon2_threads(ARRAY(tag), &numbers, ARRAY(password), ARRAY(salt),
                                             ARRAY(secret), ARRAY(associated), threads),
                     RIGZUMAL_OK);
        CHECK(are_hex(ARRAY(tag), tags[kind]));
        CHECK_NUMBER(started, most == 0 ? 0 : (int)most - 1);
    }
}

/* RFC 7914, section 12: the first and the third vector. */
static void test_scrypt_vectors(void) {
    static const char empty[] =
        "77d6576238657b203b19ca42c18a0497f16b4844e3074ae8dfdffa3fede21442"
        "fcd0069ded0948f8326a753a0fc81f17e8d3e0fb2e0d3628cf35e20c38d18906";
    static const char large[] =
        "7023bdcb3afd7348461c06cd81fd38ebfda8fbba904f8e3ea9b543f6545da1f2"
        "d5432955613f0fcf62d49705242a9af9e61e85dc0d651e40dfcf017b45575887";
    unsigned char key[64];
    struct rigzumal_scrypt small_numbers = {4, 1, 1}, large_numbers = {14, 8, 1};
    CHECK_NUMBER(rigzumal_scrypt(ARRAY(key), &small_numbers, NO_BYTES, NO_BYTES), RIGZUMAL_OK);
    CHECK(are_hex(ARRAY(key), empty));
    CHECK_NUMBER(rigzumal_scrypt(ARRAY(key), &large_numbers, LITERAL("pleaseletmein"),
                                 LITERAL("SodiumChloride")),
                 RIGZUMAL_OK);
    CHECK(are_hex(ARRAY(key), large));
}

/* The costs by the header's names: RFC 9106's second recommendation, and scrypt with 128 MiB. A
 * record of these costs shows them. */
static void test_usual_values(void) {
    static const struct {
        const char *costs, *front;
    } usual[] = {{RIGZUMAL_ARGON2_COSTS, "$argon2id$v=19$m=65536,t=3,p=4$"},
                 {RIGZUMAL_SCRYPT_COSTS, "$scrypt$ln=17,r=8,p=1$"}};
    for (size_t i = 0; i < COUNT(usual); i++) {
        char text[TEXT_ROOM];
        struct rigzumal_parts parts;
        CHECK_NUMBER(rigzumal_record(ARRAY(text), RIGZUMAL_TAG_SIZE, usual[i].costs, NULL,
                                     RIGZUMAL_SALT_SIZE, LITERAL("password")),
                     RIGZUMAL_OK);
        CHECK(strncmp(text, usual[i].front, strlen(usual[i].front)) == 0);
        CHECK_NUMBER(rigzumal_parts(&parts, text), RIGZUMAL_OK);
        CHECK(parts.salt_size == 16 && parts.tag_size == 32);
    }
    CHECK(RIGZUMAL_TEXT_SIZE == 513 && RIGZUMAL_STACK_SIZE == 24 * 1024);
    CHECK(RIGZUMAL_SALT_SIZE_MIN == 8 && RIGZUMAL_SALT_SIZE_MAX == 48);
    CHECK(RIGZUMAL_TAG_SIZE_MIN == 4 && RIGZUMAL_TAG_SIZE_MAX == 64);
    CHECK(RIGZUMAL_ARGON2D == 0 && RIGZUMAL_ARGON2I == 1 && RIGZUMAL_ARGON2ID == 2);
    CHECK(RIGZUMAL_REPLY_CHANGED == 11 && RIGZUMAL_REPLY_NO_ACCOUNT == 12); /* of a store */
    CHECK(RIGZUMAL_SCRYPT == 3 && RIGZUMAL_VERSION_10 == 0x10 && RIGZUMAL_VERSION_13 == 0x13);
    CHECK(strcmp(rigzumal_version(), RIGZUMAL_LIBRARY_VERSION) == 0);
}

/* rigzumal_trim returns the kept memory once, and the next call works as before. A call with a new
 * bound returns the old one, and releases the kept memory. */
static void test_trim_and_keep(void) {
    enum { MIB = 1024 * 1024, AREA = 16 * MIB };
    static const size_t bounds[] = {64 * MIB, 0, 64 * MIB};
    size_t bound = 64 * MIB;
    CHECK(rigzumal_trim() >= AREA);
    for (size_t i = 0; i < COUNT(bounds); i++) {
        CHECK_NUMBER(rigzumal_check(record, LITERAL("password")), RIGZUMAL_OK);
        CHECK(rigzumal_keep(bounds[i]) == bound && rigzumal_trim() == 0);
        CHECK_NUMBER(rigzumal_check(record, LITERAL("password")), RIGZUMAL_OK);
        CHECK(rigzumal_trim() == (bounds[i] == 0 ? 0 : AREA));
        bound = bounds[i];
    }
}

/* Returns the number of threads that a call starts for its three lanes: one beside the caller's for
 * two threads, and for each hash. A change and an upgrade compute two, after a wrong password too.
 * A call of argon2.h has one thread for each lane, or as many as its context says. */
static int helpers_of(const struct job *job) {
    if (job->trouble == BAD_RECORD)
        return 0;
    if (strstr(job->name, "_ctx") != NULL)
        return (int)job->number - 1;
    if (strncmp(job->name, "argon2_", 7) == 0)
        return 2;
    bool has_threads = strstr(job->name, "threads") != NULL || strstr(job->name, "_from") != NULL;
    bool has_two = strstr(job->name, "change") != NULL || strstr(job->name, "upgrade") != NULL;
    return has_threads ? 1 + has_two : 0;
}

static void test_jobs(void) {
    static struct vault vault;
    fill_vault(&vault);
    for (int i = 0; i < job_count; i++) {
        started = 0;
        CHECK_NUMBER(answer_of(&jobs[i], &vault), jobs[i].answer);
        CHECK_NUMBER(started, helpers_of(&jobs[i]));
    }
}

int main(void) {
    test_argon2_vectors();
    test_scrypt_vectors();
    test_usual_values();
    test_trim_and_keep();
    test_jobs();
    return 0;
}
