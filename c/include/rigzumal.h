/* Argon2 (RFC 9106), scrypt (RFC 7914) and the strings of password records, for programs in C.
 *
 * The hashing and the reading and writing of strings are proved. The thin layer of C in front of
 * them isn't.
 *
 *     char record[RIGZUMAL_TEXT_SIZE];
 *     int fault = rigzumal_record(record, sizeof record, RIGZUMAL_TAG_SIZE, RIGZUMAL_ARGON2_COSTS,
 *                                 NULL, RIGZUMAL_SALT_SIZE, password, password_size);
 *     if (fault != RIGZUMAL_OK)
 *         puts(rigzumal_strerror(fault));
 *     ...
 *     if (rigzumal_check(record, password, password_size) == RIGZUMAL_OK) {
 *         if (rigzumal_needs_rehash(record, RIGZUMAL_ARGON2_COSTS, RIGZUMAL_SALT_SIZE,
 *                                   RIGZUMAL_TAG_SIZE) != RIGZUMAL_OK)
 *             store_a_new_record();
 *         let_in();
 *     }
 *
 * A call that returns an int returns RIGZUMAL_OK or the number of a fault. After a fault, only
 * rigzumal_explain writes output. All sizes are in bytes, except memory costs, which are in KiB.
 * Strings end with a zero byte.
 *
 * Any number of threads may call at the same time. A call works only on the caller's thread, unless
 * its `threads` is over 1. After a call the library keeps only cleared memory, for the next calls:
 * at most as much as calls used at one time. The bound is 64 MiB, or that of rigzumal_keep, or that
 * of RIGZUMAL_KEEP in the environment: bytes in decimal digits. The library ignores other texts
 * there, such as 64M, and in a setuid program the variable. Tools count this memory as the
 * process's own until the system reclaims it. rigzumal_trim returns this memory at once.
 *
 * A call clears its memory before it frees or keeps it. At its end the call clears 22 KiB of the
 * stack below it, and all vector registers, except those with the caller's values. Blocks of 64 KiB
 * and more have huge pages if the system grants them, are in no core dump, and read as zero in a
 * forked child.
 *
 * The library for x86-64 runs on any such processor. The first call chooses a build for x86-64-v2,
 * x86-64-v3 or x86-64-v4 if the processor has all of its features and the system keeps its
 * registers. The library for ARM64 has one build for any such processor.
 *
 * The caller must meet these conditions:
 * - A pointer with a size reaches that many bytes. The pointer may be null if the size is 0, and
 *   some calls accept a null salt. Otherwise a null password, salt, secret or associated data is
 *   the call's first fault, NULL_PASSWORD to NULL_ASSOCIATED. So no call makes or checks a record
 *   with a secret that failed to load. Other pointers aren't null, unless a comment allows null.
 * - The output of a call doesn't overlap its inputs.
 * - The stack has RIGZUMAL_STACK_SIZE bytes left below the call: threads with a stack of 32 KiB may
 *   call. The memory of a hash is not on the stack, whatever its costs.
 * - The program makes no call in a signal handler, nor, before exec, in a child that a process of
 *   several threads forked. A child that a handler forks and that goes on with its parent's call
 *   returns a right answer, or ends by abort.
 * - The program leaves no call by longjmp or by asynchronous cancellation: the call's memory, with
 *   its contents, would stay mapped for ever.
 *
 * The ABI: in librigzumal.so.1 no call, structure or number of this header changes. Later versions
 * only add calls and faults; treat an unknown fault as a refusal. An incompatible change gets
 * another number after ".so". */
#ifndef RIGZUMAL_H
#define RIGZUMAL_H

#include <stddef.h>
#include <stdint.h>

#ifdef __cplusplus
extern "C" {
#endif

/* For a call whose answer a program must use: compilers warn if the program ignores the answer. */
#ifdef __GNUC__
#define RIGZUMAL_CHECK_ANSWER __attribute__((__warn_unused_result__))
#else
#define RIGZUMAL_CHECK_ANSWER
#endif

/* The version of this header; rigzumal_version returns that of the library. */
#define RIGZUMAL_LIBRARY_VERSION "0.2.0"

/* Sizes in bytes. */
enum rigzumal_size {
    RIGZUMAL_TEXT_SIZE = 513,    /* room for every record, with its zero byte */
    RIGZUMAL_STACK_SIZE = 24576, /* of the caller's stack, enough for any call */
    RIGZUMAL_SALT_SIZE = 16,     /* of a new record, as usual */
    RIGZUMAL_TAG_SIZE = 32,      /* the same */
    RIGZUMAL_SALT_SIZE_MIN = 8,  /* in a record; of scrypt 1 */
    RIGZUMAL_SALT_SIZE_MAX = 48,
    RIGZUMAL_TAG_SIZE_MIN = 4,
    RIGZUMAL_TAG_SIZE_MAX = 64
};

/* The kinds of Argon2, and a number for scrypt. For passwords use Argon2id. */
enum rigzumal_scheme {
    RIGZUMAL_ARGON2D = 0,
    RIGZUMAL_ARGON2I = 1,
    RIGZUMAL_ARGON2ID = 2,
    RIGZUMAL_SCRYPT = 3
};

/* The versions of Argon2. For new records use 0x13, which records write as v=19. */
enum rigzumal_argon2_version { RIGZUMAL_VERSION_10 = 0x10, RIGZUMAL_VERSION_13 = 0x13 };

/* Costs for rigzumal_record: RFC 9106's second recommendation, 64 MiB; or scrypt with 128 MiB. */
#define RIGZUMAL_ARGON2_COSTS "$argon2id$v=19$m=65536,t=3,p=4"
#define RIGZUMAL_SCRYPT_COSTS "$scrypt$ln=17,r=8,p=1"

enum rigzumal_fault {
    RIGZUMAL_OK = 0,
    /* Of a text, or of its parts: the first fault from the left. */
    RIGZUMAL_SHAPE = 1,    /* the text lacks its '$' or a field, or has a field too many */
    RIGZUMAL_SCHEME = 2,   /* the scheme is none of argon2d, argon2i, argon2id and scrypt */
    RIGZUMAL_VERSION = 3,  /* unsupported: settings need 19, records 19, 16 or none */
    RIGZUMAL_PARAMS = 4,   /* the costs are not in the form of the scheme */
    RIGZUMAL_RANGE = 5,    /* a number is outside its range */
    RIGZUMAL_SALT = 6,     /* the salt is not base64, or its size is outside its range */
    RIGZUMAL_TAG = 7,      /* the tag is not base64, or its size is outside its range */
    RIGZUMAL_MEMORY = 8,   /* out of memory */
    RIGZUMAL_TOO_LONG = 9, /* the text has over 512 bytes */
    /* Of a check, and of the room for a text. */
    RIGZUMAL_MISMATCH = 10, /* the record is of another password */
    RIGZUMAL_NO_ROOM = 11,  /* the text and its zero byte don't fit */
    /* Of the numbers and the inputs of Argon2. */
    RIGZUMAL_NO_KIND = 12,        /* the number names no kind */
    RIGZUMAL_NO_VERSION = 13,     /* the number names no version */
    RIGZUMAL_LANES = 14,          /* not 1 to 255 lanes */
    RIGZUMAL_COST = 15,           /* the memory isn't 8 KiB a lane to 2 GiB */
    RIGZUMAL_PASSES = 16,         /* the number of passes is 0 */
    RIGZUMAL_TAG_SIZE_FAULT = 17, /* the tag size isn't 4 to 2^32 - 1 */
    RIGZUMAL_INPUT_SIZE = 18,     /* an input has 2^32 bytes or more */
    /* Of the numbers of scrypt. */
    RIGZUMAL_SCRYPT_COST = 19, /* ln isn't 1 to 23 and below 16 r, or the table is over 2 GiB */
    RIGZUMAL_BLOCK_SIZE = 20,  /* r isn't 1 to 255 */
    RIGZUMAL_BLOCKS = 21,      /* p isn't 1 to 255 */
    RIGZUMAL_KEY_SIZE = 22,    /* the key size isn't 1 to 2^32 - 1 */
    /* Of a step. */
    RIGZUMAL_NO_OPERATION = 23,  /* no operation has this number */
    RIGZUMAL_COPY = 24,          /* the copy is not a record */
    RIGZUMAL_LONG_PASSWORD = 25, /* a password has over 256 bytes */
    /* Of a generated salt. */
    RIGZUMAL_NO_RANDOM = 26, /* the system returned no random bytes: see getrandom(2) */
    /* Of rigzumal_needs_rehash. */
    RIGZUMAL_OTHER_COSTS = 27, /* the record has other costs, or another salt or tag size */
    /* Of an input that is null, though its size isn't 0. */
    RIGZUMAL_NULL_PASSWORD = 28, /* or the new password of a change */
    RIGZUMAL_NULL_SALT = 29,     /* a new record gets a random salt instead */
    RIGZUMAL_NULL_SECRET = 30,   /* such as a pepper that failed to load */
    RIGZUMAL_NULL_ASSOCIATED = 31
};

/* The version of the library in use, such as "0.2.0". */
const char *rigzumal_version(void);

/* Returns to the system the memory that the library keeps between calls, and returns its size.
 * Running calls keep their memory. Use this call in a program that seldom hashes: the system maps
 * and clears the memory of the next call again, which takes longer. */
size_t rigzumal_trim(void);

/* Bounds the bytes that the library keeps from now on, rounded down to huge pages of 2 MiB. 0 keeps
 * none. 134217728 keeps the table of RIGZUMAL_SCRYPT_COSTS, or the memory of two callers at once
 * with RIGZUMAL_ARGON2_COSTS. The call releases the kept memory, and returns the old bound. The
 * first bound is RIGZUMAL_KEEP of the environment, or 64 MiB. */
size_t rigzumal_keep(size_t most);

/* The two calls above for libargon2.so.1, the drop-in library, which has its own memory and no
 * other call of this header. */
size_t rigzumal_libargon2_trim(void);
size_t rigzumal_libargon2_keep(size_t most);

/* The meaning of a fault in words, and its name in one word, such as "mismatch". Never null. */
const char *rigzumal_strerror(int fault);
const char *rigzumal_word(int fault);

/* Returns the fault of a record, a setting or costs: OK, or SHAPE to TOO_LONG. Writes the fault's
 * meaning into text, which has room for text_size bytes, and truncates it there. The text shows a
 * number that is out of its range with the range: "m=7 is under 8 p (8 KiB)". */
int rigzumal_explain(char *text, size_t text_size, const char *record);

/* Writes a new record of the password into text, which has room for text_size bytes. The tag gets
 * tag_size bytes. The costs are the front of the record, such as RIGZUMAL_ARGON2_COSTS.
 * If salt is null, the system's getrandom generates salt_size bytes; otherwise pass a fresh salt.
 * If salt_size is 0, the costs already have a salt: "$argon2id$v=19$m=65536,t=3,p=4$c29tZXNhbHQ".
 * Faults: NO_RANDOM; SHAPE to TOO_LONG, of costs and salt as a text; TAG; INPUT_SIZE; MEMORY;
 * NO_ROOM. */
int rigzumal_record(char *text, size_t text_size, size_t tag_size, const char *costs,
                    const void *salt, size_t salt_size, const void *password,
                    size_t password_size) RIGZUMAL_CHECK_ANSWER;

/* Whether the password is the record's: OK, otherwise MISMATCH. OK is 0, so compare with
 * RIGZUMAL_OK: `if (rigzumal_check(..))` lets everyone in but the user.
 * Faults: SHAPE to TOO_LONG, of the record; INPUT_SIZE; MEMORY. */
int rigzumal_check(const char *record, const void *password,
                   size_t password_size) RIGZUMAL_CHECK_ANSWER;

/* The two calls above with a secret beside the password: a pepper that the program keeps apart from
 * its records, K of RFC 9106, section 3.1. The text doesn't show the secret; without the same
 * secret no password is right. Scrypt has no secret, so these calls refuse scrypt as SCHEME.
 * Faults: those of rigzumal_record and of rigzumal_check; INPUT_SIZE of the secret too. */
int rigzumal_record_with_secret(char *text, size_t text_size, size_t tag_size, const char *costs,
                                const void *salt, size_t salt_size, const void *password,
                                size_t password_size, const void *secret,
                                size_t secret_size) RIGZUMAL_CHECK_ANSWER;
int rigzumal_check_with_secret(const char *record, const void *password, size_t password_size,
                               const void *secret, size_t secret_size) RIGZUMAL_CHECK_ANSWER;

/* Returns the fault of a text as a record, or as costs with a salt: OK, or SHAPE to TOO_LONG. */
int rigzumal_record_fault(const char *record) RIGZUMAL_CHECK_ANSWER;
int rigzumal_setting_fault(const char *setting) RIGZUMAL_CHECK_ANSWER;

/* The numbers of a record, or of costs. */
struct rigzumal_parts {
    uint32_t scheme;    /* RIGZUMAL_ARGON2D to RIGZUMAL_SCRYPT */
    uint32_t version;   /* of scrypt 0 */
    uint32_t memory;    /* in KiB; of scrypt ln */
    uint32_t passes;    /* of scrypt r */
    uint32_t lanes;     /* of scrypt p */
    uint32_t salt_size; /* 0 of costs without a salt */
    uint32_t tag_size;  /* 0 of costs */
};

/* Reads the numbers of a record, or of costs, with or without a salt after them: a text without a
 * tag is no record. With these numbers you can refuse a record that needs too much memory, before
 * rigzumal_check. Faults: SHAPE to TOO_LONG. */
int rigzumal_parts(struct rigzumal_parts *parts, const char *text) RIGZUMAL_CHECK_ANSWER;

/* Whether a record needs a rehash: OTHER_COSTS if its scheme, version or costs, or the sizes of its
 * salt and tag differ from a new record's, otherwise OK. Rehash after a right login, when you have
 * the password. If the costs have a salt, pass 0 as salt_size.
 * Faults: SHAPE to TOO_LONG, of the record, and then of the costs. */
int rigzumal_needs_rehash(const char *record, const char *costs, size_t salt_size,
                          size_t tag_size) RIGZUMAL_CHECK_ANSWER;

/* The operations on the record of an account. */
enum rigzumal_operation {
    RIGZUMAL_ENROL = 1,   /* add the first record */
    RIGZUMAL_VERIFY = 2,  /* compare the password with the record */
    RIGZUMAL_CHANGE = 3,  /* replace the record by one of a new password */
    RIGZUMAL_UPGRADE = 4, /* rehash the same password under other costs */
    RIGZUMAL_REMOVE = 5   /* remove the record */
};

/* The replies to the operations. After ENROLLED, REPLACED, UPGRADED and REMOVED the store has to
 * change the record. Only the store gives the last two replies. */
enum rigzumal_reply {
    RIGZUMAL_REPLY_ENROLLED = 1,   /* to an enrol: the account had no record */
    RIGZUMAL_REPLY_EXISTS = 2,     /* to an enrol: the account has a record */
    RIGZUMAL_REPLY_YES = 3,        /* to a verify: the password is right */
    RIGZUMAL_REPLY_NO = 4,         /* to a verify: the password is wrong */
    RIGZUMAL_REPLY_ABSENT = 5,     /* to all but an enrol: the account has no record */
    RIGZUMAL_REPLY_REPLACED = 6,   /* to a change */
    RIGZUMAL_REPLY_WRONG = 7,      /* to a change, an upgrade, a remove: the password is wrong */
    RIGZUMAL_REPLY_UPGRADED = 8,   /* to an upgrade */
    RIGZUMAL_REPLY_KEPT = 9,       /* to an upgrade: the record already has these costs */
    RIGZUMAL_REPLY_REMOVED = 10,   /* to a remove */
    RIGZUMAL_REPLY_CHANGED = 11,   /* the record is no longer the copy, and stays */
    RIGZUMAL_REPLY_NO_ACCOUNT = 12 /* the store doesn't have the account */
};

/* Does one whole operation on a copy of an account's record, for a store that holds the records of
 * accounts, such as a table of a database:
 *
 *     SELECT record FROM accounts WHERE id = ?                         -- the copy, or NULL
 *     rigzumal_step(text, sizeof text, &reply, operation, copy, ...)
 *     UPDATE accounts SET record = ?                                   -- the text, or NULL
 *         WHERE id = ? AND record IS NOT DISTINCT FROM ?               -- id; the copy, or NULL
 *
 * IS NOT DISTINCT FROM is an = that also holds for two NULLs. MySQL and MariaDB write <=>, and
 * SQLite before 3.39 writes IS. With = alone an ENROL would never find its copy. Compare bytes,
 * whatever the column's collation.
 *
 * A wrong password costs as many hashes as a right one, so that the time doesn't tell them apart.
 * Without a copy a step computes no hash, except an ENROL. Make a record then, and discard it, so
 * that the answer takes as long as with a copy.
 *
 * The store updates a row only if the row still has the copy: the comparison and the write are one
 * atomic change. The replies are then those of one history, in which each whole operation happens
 * at its update. Other changes may run beside steps if they compare and write atomically too, such
 * as a reset, a record of another scheme, or a new row, whose copy is no row. If an update changes
 * no row, answer CHANGED, or begin again with the row's record. For a reply that makes no change,
 * read the row again instead of the update, and compare the row with the copy.
 *
 * copy is the record's text, or null if the account has none. password is the new password of an
 * ENROL, and otherwise the judged one. Only a CHANGE reads new_password. Only an ENROL, a CHANGE
 * and an UPGRADE read setting, which is costs with a fresh salt. Other operations accept null. A
 * new tag has 32 bytes. With OK, reply is one of rigzumal_reply, except the last two. After
 * ENROLLED, REPLACED and UPGRADED text is the new record; otherwise text is empty, and text_size
 * may be 0. A step refuses a password of over 256 bytes; rigzumal_check accepts longer ones.
 * Faults, in this order: NO_OPERATION; COPY; LONG_PASSWORD; SHAPE to TOO_LONG, of the setting;
 * MEMORY; NO_ROOM. */
int rigzumal_step(char *text, size_t text_size, uint32_t *reply, uint32_t operation,
                  const char *copy, const void *password, size_t password_size,
                  const void *new_password, size_t new_password_size,
                  const char *setting) RIGZUMAL_CHECK_ANSWER;

/* The numbers of an Argon2 tag (RFC 9106, section 3.1). */
struct rigzumal_argon2 {
    uint32_t kind;    /* RIGZUMAL_ARGON2D to RIGZUMAL_ARGON2ID */
    uint32_t version; /* RIGZUMAL_VERSION_10 or RIGZUMAL_VERSION_13 */
    uint32_t memory;  /* in KiB: 8 a lane to 2097152 */
    uint32_t passes;  /* 1 or more */
    uint32_t lanes;   /* 1 to 255 */
};

/* Writes the tag into the tag_size bytes at tag: 4 or more, below 2^32.
 * Faults: NO_KIND to INPUT_SIZE; MEMORY. */
int rigzumal_argon2(void *tag, size_t tag_size, const struct rigzumal_argon2 *numbers,
                    const void *password, size_t password_size, const void *salt, size_t salt_size,
                    const void *secret, size_t secret_size, const void *associated,
                    size_t associated_size) RIGZUMAL_CHECK_ANSWER;

/* Writes a record of these parts into text, as rigzumal_record does, without a hash.
 * Faults: NULL_SALT; NO_KIND, NO_VERSION; RANGE to TAG, also for a null tag; MEMORY; NO_ROOM. */
int rigzumal_argon2_write(char *text, size_t text_size, const struct rigzumal_argon2 *numbers,
                          const void *salt, size_t salt_size, const void *tag,
                          size_t tag_size) RIGZUMAL_CHECK_ANSWER;

/* The numbers of a scrypt key (RFC 7914, section 2). Its table has 128 * r * 2^ln bytes. */
struct rigzumal_scrypt {
    uint32_t ln; /* N is 2 to the power of ln: 1 to 23, below 16 * r */
    uint32_t r;  /* the block size: 1 to 255 */
    uint32_t p;  /* the parallelization: 1 to 255 */
};

/* Writes the key into the key_size bytes at key: 1 or more, below 2^32.
 * Faults: SCRYPT_COST to KEY_SIZE; MEMORY. */
int rigzumal_scrypt(void *key, size_t key_size, const struct rigzumal_scrypt *numbers,
                    const void *password, size_t password_size, const void *salt,
                    size_t salt_size) RIGZUMAL_CHECK_ANSWER;

/* The calls below answer like those of the same names without _threads. Up to `threads` threads
 * work the lanes of Argon2, the caller's among them; 0 means 1. The call uses at most one thread
 * for each lane, and for each processor that the caller may run on. Below 4 MiB of memory, and for
 * scrypt, the call uses only one. If the system refuses a thread, the others do its work. The
 * started threads end before the call does, and handle no signal. Meanwhile the caller can't be
 * cancelled. The call clears the used part of their stacks, and unmaps them. A core dump has only
 * the highest page of each stack, and a child forked meanwhile reads the used part as zero.
 *
 * Use threads to speed up one login on an idle machine. On four processors, a tag with 64 MiB,
 * three passes and four lanes took 64 ms on one thread and 23 ms on four (bench/RESULTS.md). A
 * service that has as many logins at once as processors gains nothing at such costs. */
int rigzumal_argon2_threads(void *tag, size_t tag_size, const struct rigzumal_argon2 *numbers,
                            const void *password, size_t password_size, const void *salt,
                            size_t salt_size, const void *secret, size_t secret_size,
                            const void *associated, size_t associated_size,
                            uint32_t threads) RIGZUMAL_CHECK_ANSWER;
int rigzumal_record_threads(char *text, size_t text_size, size_t tag_size, const char *costs,
                            const void *salt, size_t salt_size, const void *password,
                            size_t password_size, uint32_t threads) RIGZUMAL_CHECK_ANSWER;
int rigzumal_check_threads(const char *record, const void *password, size_t password_size,
                           uint32_t threads) RIGZUMAL_CHECK_ANSWER;
int rigzumal_record_with_secret_threads(char *text, size_t text_size, size_t tag_size,
                                        const char *costs, const void *salt, size_t salt_size,
                                        const void *password, size_t password_size,
                                        const void *secret, size_t secret_size,
                                        uint32_t threads) RIGZUMAL_CHECK_ANSWER;
int rigzumal_check_with_secret_threads(const char *record, const void *password,
                                       size_t password_size, const void *secret, size_t secret_size,
                                       uint32_t threads) RIGZUMAL_CHECK_ANSWER;

/* The inputs of the next calls by their names; leave out those that you don't have:
 *
 *     struct rigzumal_inputs inputs = {.password = password, .password_size = password_size,
 *                                      .salt_size = RIGZUMAL_SALT_SIZE, .secret = pepper,
 *                                      .secret_size = pepper_size, .threads = 4};
 *     rigzumal_record_from(record, sizeof record, RIGZUMAL_TAG_SIZE, costs, &inputs);
 */
struct rigzumal_inputs {
    const void *password;
    size_t password_size;
    const void *salt; /* null: a record with a salt_size over 0 gets a random one */
    size_t salt_size;
    const void *secret; /* or null; K of RFC 9106, which records use too */
    size_t secret_size;
    const void *associated; /* or null; X of RFC 9106, which records use too */
    size_t associated_size;
    uint32_t threads; /* as in the calls above; 0 means 1 */
};

/* These calls do the work of rigzumal_argon2_threads, rigzumal_record_threads and
 * rigzumal_check_threads. Records may have a secret and associated data too. Scrypt has neither, so
 * with one of them the calls refuse scrypt as SCHEME. */
int rigzumal_argon2_from(void *tag, size_t tag_size, const struct rigzumal_argon2 *numbers,
                         const struct rigzumal_inputs *inputs) RIGZUMAL_CHECK_ANSWER;
int rigzumal_record_from(char *text, size_t text_size, size_t tag_size, const char *costs,
                         const struct rigzumal_inputs *inputs) RIGZUMAL_CHECK_ANSWER;
int rigzumal_check_from(const char *record,
                        const struct rigzumal_inputs *inputs) RIGZUMAL_CHECK_ANSWER;

/* The inputs of a step, as those of rigzumal_step. */
struct rigzumal_step_inputs {
    uint32_t operation;
    const char *copy;
    const void *password;
    size_t password_size;
    const void *new_password;
    size_t new_password_size;
    const char *setting;
    const void *secret; /* or null */
    size_t secret_size;
    uint32_t threads; /* 0 means 1 */
};

/* Does a step as rigzumal_step does, with a secret and threads. With a secret or over one thread, C
 * chooses the reply, and only the hashing and the texts are proved; otherwise the proved code
 * chooses the reply. Scrypt has no secret, so with a secret the call refuses scrypt as SCHEME, in
 * the copy and in the setting. */
int rigzumal_step_from(char *text, size_t text_size, uint32_t *reply,
                       const struct rigzumal_step_inputs *inputs) RIGZUMAL_CHECK_ANSWER;

#ifdef __cplusplus
}
#endif

#endif
