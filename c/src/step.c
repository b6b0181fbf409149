/* A step with a secret or with threads: the replies and hashes of the proved step, with the calls
 * that check a record and write one. After a wrong password this file writes no record. */
#include "builds.h"
#include "inputs.h"
#include "secrets.h"
#include "setting.h"

enum { LONGEST_PASSWORD = 256 };

static int setting_fault(const struct rigzumal_step_inputs *inputs) {
    const char *setting = inputs->setting == NULL ? "" : inputs->setting;
    int fault = rigzumal_setting_fault(setting);
    struct rigzumal_parts parts;
    if (fault != RIGZUMAL_OK || inputs->secret == NULL)
        return fault;
    fault = rigzumal_parts(&parts, setting);
    return fault == RIGZUMAL_OK && parts.scheme == RIGZUMAL_SCRYPT ? RIGZUMAL_SCHEME : fault;
}

static struct rigzumal_inputs inputs_of(const struct rigzumal_step_inputs *step, bool is_new) {
    return (struct rigzumal_inputs){.password = is_new ? step->new_password : step->password,
                                    .password_size =
                                        is_new ? step->new_password_size : step->password_size,
                                    .secret = step->secret,
                                    .secret_size = step->secret_size,
                                    .threads = step->threads};
}

/* Returns the fault of a step before any hash. */
static int fault_of_step(const struct rigzumal_step_inputs *inputs) {
    uint32_t operation = inputs->operation;
    struct rigzumal_inputs judged = inputs_of(inputs, false), made = inputs_of(inputs, true);
    int fault = null_fault(&judged);
    if (fault == RIGZUMAL_OK && operation == RIGZUMAL_CHANGE)
        fault = null_fault(&made);
    if (fault != RIGZUMAL_OK)
        return fault;
    if (operation < RIGZUMAL_ENROL || operation > RIGZUMAL_REMOVE)
        return RIGZUMAL_NO_OPERATION;
    if (inputs->copy != NULL && rigzumal_record_fault(inputs->copy) != RIGZUMAL_OK)
        return RIGZUMAL_COPY;
    if (inputs->password_size > LONGEST_PASSWORD ||
        (operation == RIGZUMAL_CHANGE && inputs->new_password_size > LONGEST_PASSWORD))
        return RIGZUMAL_LONG_PASSWORD;
    bool has_setting = operation != RIGZUMAL_VERIFY && operation != RIGZUMAL_REMOVE;
    return has_setting ? setting_fault(inputs) : RIGZUMAL_OK;
}

/* Whether the costs of the copy are those of the setting, so that an upgrade changes nothing. */
static bool has_costs_of_setting(const struct rigzumal_step_inputs *inputs) {
    struct rigzumal_parts copy, setting;
    return rigzumal_parts(&copy, inputs->copy) == RIGZUMAL_OK &&
           rigzumal_parts(&setting, inputs->setting) == RIGZUMAL_OK &&
           has_same_costs(&copy, &setting);
}

/* Whether the operation stores a new record after a right password. */
static bool makes_record(const struct rigzumal_step_inputs *step) {
    return step->operation == RIGZUMAL_CHANGE ||
           (step->operation == RIGZUMAL_UPGRADE && !has_costs_of_setting(step));
}

/* Writes the new record, and sets the reply if the record fits. */
static int make(char *text, size_t text_size, uint32_t *reply, uint32_t replied,
                const struct rigzumal_step_inputs *step) {
    struct rigzumal_inputs inputs = inputs_of(step, step->operation == RIGZUMAL_CHANGE);
    int fault = rigzumal_record_from(text, text_size, RIGZUMAL_TAG_SIZE, step->setting, &inputs);
    if (fault == RIGZUMAL_OK)
        *reply = replied;
    return fault;
}

/* Computes the tag of the new record, and discards it: the text gets no room. */
static int discard(const struct rigzumal_step_inputs *step) {
    int fault = make(NULL, 0, NULL, 0, step);
    return fault == RIGZUMAL_NO_ROOM ? RIGZUMAL_OK : fault;
}

/* Sets the reply, and writes no record. */
static int answer(char *text, size_t text_size, uint32_t *reply, uint32_t replied) {
    if (text_size > 0)
        text[0] = '\0';
    *reply = replied;
    return RIGZUMAL_OK;
}

static int step_at_record(char *text, size_t text_size, uint32_t *reply,
                          const struct rigzumal_step_inputs *step) {
    if (step->operation == RIGZUMAL_ENROL)
        return answer(text, text_size, reply, RIGZUMAL_REPLY_EXISTS);
    struct rigzumal_inputs inputs = inputs_of(step, false);
    int fault = rigzumal_check_from(step->copy, &inputs);
    bool is_right = fault == RIGZUMAL_OK, makes = makes_record(step);
    if (fault == RIGZUMAL_MISMATCH) /* as many hashes: the time must not tell it from a right one */
        fault = makes ? discard(step) : RIGZUMAL_OK;
    if (fault != RIGZUMAL_OK)
        return fault;
    if (step->operation == RIGZUMAL_VERIFY)
        return answer(text, text_size, reply, is_right ? RIGZUMAL_REPLY_YES : RIGZUMAL_REPLY_NO);
    if (!is_right)
        return answer(text, text_size, reply, RIGZUMAL_REPLY_WRONG);
    if (step->operation == RIGZUMAL_REMOVE)
        return answer(text, text_size, reply, RIGZUMAL_REPLY_REMOVED);
    if (step->operation == RIGZUMAL_CHANGE)
        return make(text, text_size, reply, RIGZUMAL_REPLY_REPLACED, step);
    if (!makes)
        return answer(text, text_size, reply, RIGZUMAL_REPLY_KEPT);
    return make(text, text_size, reply, RIGZUMAL_REPLY_UPGRADED, step);
}

int rigzumal_step_from(char *text, size_t text_size, uint32_t *reply,
                       const struct rigzumal_step_inputs *inputs) {
    if (inputs->secret == NULL && inputs->secret_size == 0 && inputs->threads <= 1)
        return rigzumal_step(text, text_size, reply, inputs->operation, inputs->copy,
                             inputs->password, inputs->password_size, inputs->new_password,
                             inputs->new_password_size, inputs->setting);
    int fault = fault_of_step(inputs);
    if (fault != RIGZUMAL_OK)
        return fault;
    if (inputs->copy != NULL)
        return step_at_record(text, text_size, reply, inputs);
    if (inputs->operation == RIGZUMAL_ENROL)
        return make(text, text_size, reply, RIGZUMAL_REPLY_ENROLLED, inputs);
    return answer(text, text_size, reply, RIGZUMAL_REPLY_ABSENT);
}
