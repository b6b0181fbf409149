#include "jobs.h"

#include "check.h"
#include "libargon2.h"

static const unsigned char salt[16] = "sixteen of salt.";
uint32_t job_kind = RIGZUMAL_ARGON2ID, job_version = RIGZUMAL_VERSION_13;
void (*look_at)(void *answer, size_t size);

#define OF_KIND(of_i, of_id) (job_kind == RIGZUMAL_ARGON2I ? (of_i) : (of_id))
#define COSTS OF_KIND("$argon2i$v=19$m=64,t=1,p=3", "$argon2id$v=19$m=64,t=1,p=3")
#define DEARER                                                                                     \
    OF_KIND("$argon2i$v=19$m=72,t=1,p=3$c2l4dGVlbiBvZiBzYWx0Lg",                                   \
            "$argon2id$v=19$m=72,t=1,p=3$c2l4dGVlbiBvZiBzYWx0Lg")

/* The inputs of a call, with its fault. */

static int has_trouble(const struct vault *it, enum trouble trouble) {
    return it->job->trouble == trouble;
}

#define PASSWORD it->password, sizeof it->password - has_trouble(it, OTHER_PASSWORD)
#define SECRET it->secret, sizeof it->secret - has_trouble(it, OTHER_SECRET)
#define TEXT it->text, (has_trouble(it, LITTLE_ROOM) ? 60 : sizeof it->text)
#define RECORD(record) (has_trouble(it, BAD_RECORD) ? it->bad_record : (record))

/* The calls of rigzumal.h. */

static struct rigzumal_argon2 argon2_numbers(uint32_t memory) {
    return (struct rigzumal_argon2){job_kind, job_version, memory, 1, 3};
}

static struct rigzumal_inputs inputs_of(const struct vault *it) {
    return (struct rigzumal_inputs){PASSWORD, ARRAY(salt), SECRET, NO_BYTES, 2};
}

/* A call that is one expression; numbers and inputs are those of the job. */
#define JOB(name, call)                                                                            \
    static int name(struct vault *it) {                                                            \
        struct rigzumal_argon2 numbers = argon2_numbers(it->job->number);                          \
        struct rigzumal_inputs inputs = inputs_of(it);                                             \
        (void)numbers, (void)inputs;                                                               \
        return call;                                                                               \
    }

JOB(tag, rigzumal_argon2(it->made, TAG, &numbers, PASSWORD, ARRAY(salt), NO_BYTES, NO_BYTES))
JOB(tag_with_secret,
    rigzumal_argon2(it->made, TAG, &numbers, PASSWORD, ARRAY(salt), SECRET, NO_BYTES))
JOB(tag_in_threads,
    rigzumal_argon2_threads(it->made, TAG, &numbers, PASSWORD, ARRAY(salt), SECRET, NO_BYTES, 2))
JOB(record, rigzumal_record(TEXT, TAG, COSTS, ARRAY(salt), PASSWORD))
JOB(scrypt_record, rigzumal_record(TEXT, KEY, "$scrypt$ln=4,r=2,p=2", ARRAY(salt), PASSWORD))
JOB(record_in_threads, rigzumal_record_threads(TEXT, TAG, COSTS, ARRAY(salt), PASSWORD, 2))
JOB(record_with_secret,
    rigzumal_record_with_secret(TEXT, TAG, COSTS, ARRAY(salt), PASSWORD, SECRET))
JOB(record_with_secret_in_threads,
    rigzumal_record_with_secret_threads(TEXT, TAG, COSTS, ARRAY(salt), PASSWORD, SECRET, 2))
JOB(record_from, rigzumal_record_from(TEXT, TAG, COSTS, &inputs))
JOB(check, rigzumal_check(RECORD(it->record), PASSWORD))
JOB(scrypt_check, rigzumal_check(it->scrypt_record, PASSWORD))
JOB(check_in_threads, rigzumal_check_threads(it->record, PASSWORD, 2))
JOB(check_with_secret, rigzumal_check_with_secret(RECORD(it->record_with_secret), PASSWORD, SECRET))
JOB(check_with_secret_in_threads,
    rigzumal_check_with_secret_threads(it->record_with_secret, PASSWORD, SECRET, 2))
JOB(check_from, rigzumal_check_from(it->record_with_secret, &inputs))
JOB(record_fault, rigzumal_record_fault(RECORD(it->record)))
JOB(setting_fault, rigzumal_setting_fault(has_trouble(it, BAD_RECORD) ? it->record : it->setting))
JOB(explained, rigzumal_explain(TEXT, RECORD(it->record)))
JOB(explained_cost, rigzumal_explain(TEXT, it->cheap_record))
JOB(needs_rehash, rigzumal_needs_rehash(it->record, COSTS, sizeof salt, TAG))
JOB(parts, rigzumal_parts(&(struct rigzumal_parts){0}, it->record))
JOB(key, rigzumal_scrypt(it->made, KEY, &(struct rigzumal_scrypt){it->job->number, 2, 2}, PASSWORD,
                         ARRAY(salt)))
JOB(written_record, rigzumal_argon2_write(TEXT, &numbers, ARRAY(salt), ARRAY(it->tag)))

/* The replies to each operation, if the password is right and if it is wrong. */
static const struct {
    uint32_t right, wrong;
} replies[] = {
    [RIGZUMAL_ENROL] = {RIGZUMAL_REPLY_ENROLLED, 0},
    [RIGZUMAL_VERIFY] = {RIGZUMAL_REPLY_YES, RIGZUMAL_REPLY_NO},
    [RIGZUMAL_CHANGE] = {RIGZUMAL_REPLY_REPLACED, RIGZUMAL_REPLY_WRONG},
    [RIGZUMAL_UPGRADE] = {RIGZUMAL_REPLY_UPGRADED, RIGZUMAL_REPLY_WRONG},
    [RIGZUMAL_REMOVE] = {RIGZUMAL_REPLY_REMOVED, RIGZUMAL_REPLY_WRONG},
};

/* Returns OK or MISMATCH for the reply, otherwise the fault, or -1. */
static int verdict_of(int fault, uint32_t operation, uint32_t reply) {
    if (look_at != NULL) {
        look_at(&fault, sizeof fault);
        look_at(&reply, sizeof reply);
    }
    if (fault != RIGZUMAL_OK || reply == replies[operation].right)
        return fault;
    return reply == replies[operation].wrong ? RIGZUMAL_MISMATCH : -1;
}

static int step(struct vault *it) {
    uint32_t reply = 0, operation = it->job->number;
    const char *copy = operation == RIGZUMAL_ENROL ? NULL : RECORD(it->record);
    int fault = rigzumal_step(TEXT, &reply, operation, copy, PASSWORD, SECRET, DEARER);
    return verdict_of(fault, operation, reply);
}

static int step_from(struct vault *it) {
    struct rigzumal_step_inputs inputs = {
        it->job->number, it->record_with_secret, PASSWORD, SECRET, DEARER, SECRET, 2};
    uint32_t reply = 0;
    int fault = rigzumal_step_from(TEXT, &reply, &inputs);
    return verdict_of(fault, inputs.operation, reply);
}

/* The calls of argon2.h. */

static argon2_context context_of(struct vault *it) {
    return (argon2_context){.out = it->made,
                            .outlen = TAG,
                            .pwd = it->password,
                            .pwdlen = sizeof it->password - has_trouble(it, OTHER_PASSWORD),
                            .salt = (uint8_t *)(uintptr_t)salt,
                            .saltlen = sizeof salt,
                            .secret = it->secret,
                            .secretlen = sizeof it->secret,
                            .t_cost = 1,
                            .m_cost = 64,
                            .lanes = 3,
                            .threads = it->job->number,
                            .version = RIGZUMAL_VERSION_13};
}

static int libargon2_ctx(struct vault *it) {
    argon2_context context = context_of(it);
    return argon2_ctx(&context, Argon2_id);
}

static int libargon2_verify_ctx(struct vault *it) {
    argon2_context context = context_of(it);
    return argon2_verify_ctx(&context, (const char *)it->tag_with_secret, Argon2_id);
}

/* The call clears the inputs that the flags name. After a refusal the inputs are unchanged, and a
 * second call has the same password. If the tag has begun, the inputs are gone, and a second call
 * is refused too. */
static int clearing(struct vault *it, argon2_context context) {
    context.pwd = memcpy(it->given_password, it->password, sizeof it->password);
    context.secret = memcpy(it->given_secret, it->secret, sizeof it->secret);
    context.flags = FLAG_CLEAR_PASSWORD | FLAG_CLEAR_SECRET;
    int answer = argon2_ctx(&context, Argon2_id);
    if (answer == ARGON2_OK) {
        CHECK(context.pwdlen == 0 && is_all(it->given_password, 0, sizeof it->password));
        CHECK(context.secretlen == 0 && is_all(it->given_secret, 0, sizeof it->secret));
        return answer;
    }
    CHECK(context.pwdlen == sizeof it->password && context.secretlen == sizeof it->secret);
    if (context.pwd == NULL) {
        CHECK(is_all(it->given_password, 0, sizeof it->password));
        CHECK(context.secret == NULL && is_all(it->given_secret, 0, sizeof it->secret));
        CHECK_NUMBER(argon2_ctx(&context, Argon2_id), ARGON2_PWD_PTR_MISMATCH);
    } else {
        CHECK(memcmp(context.pwd, it->password, sizeof it->password) == 0);
        CHECK(memcmp(context.secret, it->secret, sizeof it->secret) == 0);
    }
    memset(it->given_password, 0, sizeof it->password);
    memset(it->given_secret, 0, sizeof it->secret);
    return answer;
}

static int held; /* blocks of the context's own memory */

static int allocate(uint8_t **memory, size_t size) {
    *memory = malloc(size);
    held += *memory != NULL;
    return *memory == NULL;
}

static void give(uint8_t *memory, size_t size) {
    CHECK(is_all(memory, 0, size));
    held--;
    free(memory);
}

static int libargon2_ctx_with_memory(struct vault *it) {
    argon2_context context = context_of(it);
    context.allocate_cbk = allocate;
    context.free_cbk = give;
    int answer = clearing(it, context);
    CHECK(held == 0);
    return answer;
}

JOB(libargon2_clearing_ctx, clearing(it, context_of(it)))

#define OF_ARGON2_H 1, 64, 3, PASSWORD, ARRAY(salt)
#define TYPE (argon2_type) job_kind

JOB(libargon2_raw,
    argon2_hash(OF_ARGON2_H, it->made, it->job->number, NULL, 0, TYPE, RIGZUMAL_VERSION_13))
JOB(libargon2_encoded,
    argon2_hash(OF_ARGON2_H, NULL, it->job->number, TEXT, TYPE, RIGZUMAL_VERSION_13))
JOB(libargon2_verify,
    argon2_verify(RECORD(it->job->number == LONG_TAG ? it->long_string : it->record), PASSWORD,
                  TYPE))

#define DONE RIGZUMAL_OK, NO_TROUBLE, 0
#define DONE_WITH(number) RIGZUMAL_OK, NO_TROUBLE, number
#define OF_ANOTHER RIGZUMAL_MISMATCH, OTHER_PASSWORD, 0
#define WRONG(operation) RIGZUMAL_MISMATCH, OTHER_PASSWORD, operation
#define WITH_ANOTHER RIGZUMAL_MISMATCH, OTHER_SECRET, 0
#define OF_A_BAD_RECORD RIGZUMAL_SHAPE, BAD_RECORD, 0
#define WITHOUT_ROOM RIGZUMAL_NO_ROOM, LITTLE_ROOM, 0
#define STRING_OF_ANOTHER ARGON2_VERIFY_MISMATCH, OTHER_PASSWORD

const struct job jobs[] = {
    {"rigzumal_argon2, small", tag, DONE_WITH(64)},
    {"rigzumal_argon2 in areas", tag_with_secret, DONE_WITH(24576)},
    {"rigzumal_argon2 in areas of its own", tag_with_secret, DONE_WITH(69632)},
    {"rigzumal_argon2_threads", tag_in_threads, DONE_WITH(4096)},
    {"rigzumal_argon2_threads in areas of its own", tag_in_threads, DONE_WITH(69632)},
    {"rigzumal_scrypt, small", key, DONE_WITH(4)},
    {"rigzumal_scrypt in areas", key, DONE_WITH(12)},
    {"rigzumal_record", record, DONE},
    {"rigzumal_record without room", record, WITHOUT_ROOM},
    {"rigzumal_record of scrypt", scrypt_record, DONE},
    {"rigzumal_record_threads", record_in_threads, DONE},
    {"rigzumal_record_threads without room", record_in_threads, WITHOUT_ROOM},
    {"rigzumal_record_with_secret", record_with_secret, DONE},
    {"rigzumal_record_with_secret_threads", record_with_secret_in_threads, DONE},
    {"rigzumal_record_from", record_from, DONE},
    {"rigzumal_argon2_write", written_record, DONE_WITH(64)},
    {"rigzumal_check", check, DONE},
    {"rigzumal_check of another password", check, OF_ANOTHER},
    {"rigzumal_check of a bad record", check, OF_A_BAD_RECORD},
    {"rigzumal_check of scrypt", scrypt_check, DONE},
    {"rigzumal_check_threads", check_in_threads, DONE},
    {"rigzumal_check_threads of another password", check_in_threads, OF_ANOTHER},
    {"rigzumal_check_with_secret", check_with_secret, DONE},
    {"rigzumal_check_with_secret, another", check_with_secret, WITH_ANOTHER},
    {"rigzumal_check_with_secret of a bad record", check_with_secret, OF_A_BAD_RECORD},
    {"rigzumal_check_with_secret_threads", check_with_secret_in_threads, DONE},
    {"rigzumal_check_from", check_from, DONE},
    {"rigzumal_check_from, another secret", check_from, WITH_ANOTHER},
    {"rigzumal_record_fault", record_fault, DONE},
    {"rigzumal_record_fault of a bad record", record_fault, OF_A_BAD_RECORD},
    {"rigzumal_setting_fault", setting_fault, DONE},
    {"rigzumal_setting_fault of a record", setting_fault, OF_A_BAD_RECORD},
    {"rigzumal_explain", explained, DONE},
    {"rigzumal_explain of a bad record", explained, OF_A_BAD_RECORD},
    {"rigzumal_explain of a cost out of range", explained_cost, RIGZUMAL_RANGE, NO_TROUBLE, 0},
    {"rigzumal_parts", parts, DONE},
    {"rigzumal_needs_rehash", needs_rehash, DONE},
    {"rigzumal_step of an enrol", step, DONE_WITH(RIGZUMAL_ENROL)},
    {"rigzumal_step of a verify", step, DONE_WITH(RIGZUMAL_VERIFY)},
    {"rigzumal_step of a change", step, DONE_WITH(RIGZUMAL_CHANGE)},
    {"rigzumal_step of an upgrade", step, DONE_WITH(RIGZUMAL_UPGRADE)},
    {"rigzumal_step of a removal", step, DONE_WITH(RIGZUMAL_REMOVE)},
    {"rigzumal_step at a bad record", step, RIGZUMAL_COPY, BAD_RECORD, RIGZUMAL_VERIFY},
    {"rigzumal_step_from of a verify", step_from, DONE_WITH(RIGZUMAL_VERIFY)},
    {"rigzumal_step_from of a change", step_from, DONE_WITH(RIGZUMAL_CHANGE)},
    {"rigzumal_step_from of a wrong change", step_from, WRONG(RIGZUMAL_CHANGE)},
    {"rigzumal_step_from of a wrong upgrade", step_from, WRONG(RIGZUMAL_UPGRADE)},
    {"argon2_ctx", libargon2_ctx, DONE_WITH(2)},
    {"argon2_ctx on one thread", libargon2_ctx, DONE_WITH(1)},
    {"argon2_ctx that clears", libargon2_clearing_ctx, DONE_WITH(2)},
    {"argon2_ctx that clears on one thread", libargon2_clearing_ctx, DONE_WITH(1)},
    {"argon2_ctx that clears its own memory", libargon2_ctx_with_memory, DONE_WITH(2)},
    {"argon2_verify_ctx", libargon2_verify_ctx, DONE_WITH(2)},
    {"argon2_verify_ctx of another", libargon2_verify_ctx, STRING_OF_ANOTHER, 2},
    {"argon2_hash, a tag", libargon2_raw, DONE_WITH(TAG)},
    {"argon2_hash, a long tag", libargon2_raw, DONE_WITH(LONG_TAG)},
    {"argon2_hash, a string", libargon2_encoded, DONE_WITH(TAG)},
    {"argon2_hash, a string without room", libargon2_encoded, ARGON2_ENCODING_FAIL, LITTLE_ROOM,
     TAG},
    {"argon2_hash, a string of a long tag", libargon2_encoded, DONE_WITH(LONG_TAG)},
    {"argon2_verify", libargon2_verify, DONE_WITH(TAG)},
    {"argon2_verify of another", libargon2_verify, STRING_OF_ANOTHER, TAG},
    {"argon2_verify of a bad string", libargon2_verify, ARGON2_DECODING_FAIL, BAD_RECORD, TAG},
    {"argon2_verify of a long tag", libargon2_verify, DONE_WITH(LONG_TAG)},
    {"argon2_verify of another's long tag", libargon2_verify, STRING_OF_ANOTHER, LONG_TAG},
};

const int job_count = COUNT(jobs);

const struct job *job_of(const char *name) {
    for (int i = 0; i < job_count; i++)
        if (strcmp(jobs[i].name, name) == 0)
            return &jobs[i];
    return NULL;
}

int answer_of(const struct job *job, struct vault *vault) {
    vault->job = job;
    int answer = job->call(vault);
    vault->job = NULL;
    return answer;
}

void fill_vault(struct vault *vault) {
    memset(vault, 0, sizeof *vault);
    for (size_t i = 0; i < sizeof vault->password; i++)
        vault->password[i] = (unsigned char)(i * 197 + 71);
    for (size_t i = 0; i < sizeof vault->secret; i++)
        vault->secret[i] = (unsigned char)(i * 163 + 37);
    const struct {
        struct job job;
        void *to;
        const void *from;
        size_t size;
    } made[] = {
        {{"", tag, DONE_WITH(64)}, vault->tag, vault->made, TAG},
        {{"", tag_with_secret, DONE_WITH(64)}, vault->tag_with_secret, vault->made, TAG},
        {{"", key, DONE_WITH(4)}, vault->key, vault->made, KEY},
        {{"", libargon2_raw, DONE_WITH(LONG_TAG)}, vault->long_tag, vault->made, LONG_TAG},
        {{"", libargon2_encoded, DONE_WITH(LONG_TAG)}, vault->long_string, vault->text, ENCODED},
        {{"", record_with_secret, DONE}, vault->record_with_secret, vault->text, TEXT_ROOM},
        {{"", scrypt_record, DONE}, vault->scrypt_record, vault->text, TEXT_ROOM},
        {{"", record, DONE}, vault->record, vault->text, TEXT_ROOM},
    };
    for (size_t i = 0; i < COUNT(made); i++) {
        CHECK_NUMBER(answer_of(&made[i].job, vault), RIGZUMAL_OK);
        memcpy(made[i].to, made[i].from, made[i].size);
        memset(vault->text, 0, sizeof vault->text);
        memset(vault->made, 0, sizeof vault->made);
    }
    strcat(strcpy(vault->bad_record, vault->record), "$");
    strcat(strcpy(vault->cheap_record, "$argon2id$v=19$m=8,t=1,p=3$c29tZXNhbHQ"),
           strrchr(vault->record, '$'));
    strcat(strcpy(vault->setting, COSTS), strrchr(vault->record, '$'));
}
