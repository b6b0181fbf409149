/* A PAM module that asks a book through a socket of credkeep-server: auth, account, password. The
 * module keeps nothing between two calls and has no static state, so several threads may call it at
 * once. Each question sends one line on a new connection, and reads one line before a deadline. */
#define _GNU_SOURCE
#if !__has_include(<security/pam_modules.h>)
#error "PAM's headers are missing: install libpam0g-dev"
#endif

#include "answers.h"
#include "base64.h"
#include <errno.h>
#include <poll.h>
#include <security/pam_ext.h>
#include <security/pam_modules.h>
#include <stdbool.h>
#include <stdlib.h>
#include <string.h>
#include <sys/socket.h>
#include <sys/un.h>
#include <syslog.h>
#include <time.h>
#include <unistd.h>

enum {
    MOST_NAME = 32,      /* bytes of a name in a book */
    MOST_ADDRESS = 254,  /* bytes of an e-mail address */
    MOST_PASSWORD = 256, /* bytes */
    MOST_LINE = 1024,    /* bytes of a request: "1 change ", a name and two passwords */
    MOST_ANSWER = 64,    /* bytes of an answer */
    FIRST_PAUSE = 10,    /* milliseconds before the module asks again: each pause doubles .. */
    LONGEST_PAUSE = 640, /* .. up to this one */
};

/* The answer to a connection for which the server has no room now, and from which it read no line.
 * */
static const char NO_ROOM[] = "* unavailable";

/* The options, and the fields of the line: a password that the operation doesn't need is NULL. */
struct question {
    const char *socket;
    long seconds;
    bool debug, nullok, mail_names, quiet_unknown;
    const char *name, *password, *fresh;
};

/* An operation's word, the one answer that is success, and the results for an account without a
 * record and for a password that must be changed, which only pam_sm_acct_mgmt reports. */
struct operation {
    const char *word, *success;
    int absent, expired;
};

static const struct operation VERIFY = {"verify", "yes", PAM_AUTH_ERR, PAM_SUCCESS};
static const struct operation KNOWN = {"known", "yes", PAM_ACCT_EXPIRED, PAM_NEW_AUTHTOK_REQD};
static const struct operation CHANGE = {"change", "replaced", PAM_AUTH_ERR, PAM_AUTHINFO_UNAVAIL};

static bool read_option(struct question *question, const char *word) {
    char *end = "";
    if (strncmp(word, "socket=", 7) == 0)
        question->socket = word + 7;
    else if (strncmp(word, "timeout=", 8) == 0)
        question->seconds = strtol(word + 8, &end, 10);
    else if (strcmp(word, "debug") == 0)
        question->debug = true;
    else if (strcmp(word, "nullok") == 0)
        question->nullok = true;
    else if (strcmp(word, "mail_names") == 0)
        question->mail_names = true;
    else if (strcmp(word, "quiet_unknown") == 0)
        question->quiet_unknown = true;
    else if (strcmp(word, "try_first_pass") != 0 && strcmp(word, "use_first_pass") != 0)
        return strcmp(word, "use_authtok") == 0; /* pam_get_authtok(3) reads these three */
    size_t size = strlen(question->socket);
    return *end == '\0' && question->seconds >= 1 && question->seconds <= 600 &&
           *question->socket == '/' && size < sizeof((struct sockaddr_un *)0)->sun_path;
}

/* Reads the options, and asks for the user's name if PAM doesn't know it yet. */
static int begin(pam_handle_t *pamh, struct question *question, int argc, const char **argv) {
    *question = (struct question){.socket = "/run/rigzumal/users/login.sock", .seconds = 10};
    for (int i = 0; i < argc; i++)
        if (!read_option(question, argv[i])) {
            pam_syslog(pamh, LOG_ERR, "bad option: %s", argv[i]);
            return PAM_SERVICE_ERR;
        }
    int result = pam_get_user(pamh, &question->name, NULL);
    return result == PAM_CONV_AGAIN ? PAM_INCOMPLETE : result;
}

/* Asks for a password. */
static int get_password(pam_handle_t *pamh, int item, const char **password) {
    int result = pam_get_authtok(pamh, item, password, NULL);
    return result == PAM_CONV_AGAIN ? PAM_INCOMPLETE : result;
}

/* Whether the book may have this password; only nullok accepts an empty one. */
static bool is_password(const struct question *question, const char *password, int flags) {
    if (*password == '\0')
        return question->nullok && !(flags & PAM_DISALLOW_NULL_AUTHTOK);
    return strlen(password) <= MOST_PASSWORD;
}

/* Whether the module may send a name: a name without a space and a line end stays one field. */
static bool is_name(const struct question *question) {
    const char *name = question->name, *at = strrchr(name, '@');
    size_t size = strspn(name, "abcdefghijklmnopqrstuvwxyz0123456789._-");
    if (name[size] == '\0')
        return size >= 1 && size <= MOST_NAME;
    while ((unsigned char)name[size] > ' ' && name[size] != 0x7f)
        size++;
    return question->mail_names && name[size] == '\0' && size <= MOST_ADDRESS && at != NULL &&
           at != name && at[1] != '\0';
}

/* Writes a password as a field, or nothing for NULL, and returns the end of the field. */
static char *put_password(char *text, const char *password) {
    if (password == NULL)
        return text;
    size_t size = strlen(password);
    *text++ = ' ';
    if (size == 0)
        *text++ = '-';
    base64_write((uint8_t *)text, (const uint8_t *)password, size);
    return text + base64_size(size);
}

static long milliseconds(void) {
    struct timespec now;
    clock_gettime(CLOCK_MONOTONIC, &now);
    return now.tv_sec * 1000 + now.tv_nsec / 1000000;
}

/* Opens a connection, or returns -1. If too many other clients wait for the server, the call waits
 * behind them. */
static int connection(const char *path, long deadline) {
    struct sockaddr_un at = {.sun_family = AF_UNIX};
    memcpy(at.sun_path, path, strlen(path));
    int fd = socket(AF_UNIX, SOCK_STREAM | SOCK_CLOEXEC, 0);
    for (long rest; fd >= 0 && (rest = deadline - milliseconds()) > 0;) {
        struct timeval wait = {.tv_sec = rest / 1000, .tv_usec = rest % 1000 * 1000};
        setsockopt(fd, SOL_SOCKET, SO_SNDTIMEO, &wait, sizeof wait);
        if (connect(fd, (struct sockaddr *)&at, sizeof at) == 0)
            return fd;
        if (errno != EINTR && errno != EAGAIN)
            break;
    }
    if (fd >= 0)
        close(fd);
    return -1;
}

/* Waits until the file can be read or written, or has failed. Returns false at the deadline. */
static bool is_ready(int fd, short events, long deadline) {
    for (long rest; (rest = deadline - milliseconds()) > 0;) {
        struct pollfd it = {.fd = fd, .events = events};
        int found = poll(&it, 1, (int)rest);
        if (found > 0 || (found < 0 && errno != EINTR))
            return found > 0;
    }
    return false;
}

static bool send_line(int fd, const char *text, size_t size, long deadline) {
    size_t sent = 0;
    while (sent < size && is_ready(fd, POLLOUT, deadline)) {
        ssize_t more = send(fd, text + sent, size - sent, MSG_NOSIGNAL | MSG_DONTWAIT);
        if (more < 0 && errno != EINTR && errno != EAGAIN)
            return false;
        sent += more > 0 ? (size_t)more : 0;
    }
    return sent == size;
}

/* Reads a line, after which nothing may follow, and replaces the line's end by a zero byte. */
static bool read_answer(int fd, char answer[MOST_ANSWER], long deadline) {
    size_t size = 0;
    while (size < MOST_ANSWER && is_ready(fd, POLLIN, deadline)) {
        ssize_t got = recv(fd, answer + size, MOST_ANSWER - size, MSG_DONTWAIT);
        if (got == 0 || (got < 0 && errno != EINTR && errno != EAGAIN))
            return false;
        size += got > 0 ? (size_t)got : 0;
        if (size > 0 && answer[size - 1] == '\n') {
            answer[size - 1] = '\0';
            return strlen(answer) == size - 1;
        }
    }
    return false;
}

/* Returns the meaning of the server's line. A word that answers no operation is no answer. */
static int result_of(pam_handle_t *pamh, const struct operation *operation, const char *line) {
    if (strncmp(line, "1 ", 2) != 0)
        return PAM_AUTHINFO_UNAVAIL;
    const char *word = line + 2;
    if (strcmp(word, operation->success) == 0)
        return PAM_SUCCESS;
    if (strcmp(word, "absent") == 0)
        return operation->absent;
    if (strcmp(word, "expired") == 0)
        return operation->expired;
    for (size_t i = 0; i < sizeof ANSWERS / sizeof *ANSWERS; i++)
        if (strcmp(word, ANSWERS[i].word) == 0) {
            if (ANSWERS[i].text != NULL)
                pam_error(pamh, "%s", ANSWERS[i].text);
            return ANSWERS[i].result;
        }
    return PAM_AUTHINFO_UNAVAIL;
}

static const char *text_item(const pam_handle_t *pamh, int item) {
    const void *text = NULL;
    pam_get_item(pamh, item, &text);
    return text == NULL ? "" : text;
}

/* Logs a failed try in the form of pam_unix. The line has the name only if the book has it: another
 * name may be a password that the user typed too early. */
static void log_failure(const pam_handle_t *pamh, const char *name) {
    pam_syslog(pamh, LOG_NOTICE,
               "authentication failure; logname= uid=%u euid=%u tty=%s ruser=%s rhost=%s %s%s",
               getuid(), geteuid(), text_item(pamh, PAM_TTY), text_item(pamh, PAM_RUSER),
               text_item(pamh, PAM_RHOST), name == NULL ? "" : " user=", name == NULL ? "" : name);
}

static void log_result(pam_handle_t *pamh, const struct question *question,
                       const struct operation *operation, int result) {
    if (result == PAM_AUTHINFO_UNAVAIL)
        pam_syslog(pamh, LOG_ERR, "%s: no answer to %s", question->socket, operation->word);
    else if (result == PAM_AUTH_ERR)
        log_failure(pamh, question->name);
    else if (result == PAM_MAXTRIES ||
             (result == PAM_USER_UNKNOWN && operation == &VERIFY && !question->quiet_unknown))
        log_failure(pamh, NULL);
    if (question->debug)
        pam_syslog(pamh, LOG_DEBUG, "%s: %s", operation->word, pam_strerror(pamh, result));
}

/* Sends a question's line and reads its answer. A server without room may close the connection
 * before it has read the line. */
static bool has_answer(int fd, const struct question *question, const struct operation *operation,
                       char answer[MOST_ANSWER], long deadline) {
    char line[MOST_LINE];
    char *end = stpcpy(stpcpy(stpcpy(stpcpy(line, "1 "), operation->word), " "), question->name);
    end = put_password(put_password(end, question->password), question->fresh);
    *end++ = '\n';
    bool is_sent = send_line(fd, line, (size_t)(end - line), deadline);
    explicit_bzero(line, sizeof line);
    return read_answer(fd, answer, deadline) && (is_sent || strcmp(answer, NO_ROOM) == 0);
}

/* Asks a question, repeatedly while the server has no room, and returns the meaning of the answer.
 * */
static int answer_to(pam_handle_t *pamh, const struct question *question,
                     const struct operation *operation) {
    char answer[MOST_ANSWER];
    long deadline = milliseconds() + question->seconds * 1000, pause = FIRST_PAUSE;
    for (int fd; (fd = connection(question->socket, deadline)) >= 0;) {
        bool is_answered = has_answer(fd, question, operation, answer, deadline);
        close(fd);
        if (!is_answered || strcmp(answer, NO_ROOM) != 0)
            return is_answered ? result_of(pamh, operation, answer) : PAM_AUTHINFO_UNAVAIL;
        long next = milliseconds() + pause;
        is_ready(-1, 0, next < deadline ? next : deadline); /* with no file, the call only waits */
        pause = pause < LONGEST_PAUSE ? 2 * pause : pause;
    }
    return PAM_AUTHINFO_UNAVAIL;
}

static int ask(pam_handle_t *pamh, const struct question *question,
               const struct operation *operation) {
    int result = is_name(question) ? answer_to(pamh, question, operation) : PAM_USER_UNKNOWN;
    log_result(pamh, question, operation, result);
    return result;
}

/* Asks whether the password is right. A password that no record of the book can have is wrong if
 * the book has the name; otherwise another module judges it. */
static int verify(pam_handle_t *pamh, struct question *question, int flags) {
    if (is_password(question, question->password, flags))
        return ask(pamh, question, &VERIFY);
    struct question known = *question;
    known.password = NULL;
    int result = ask(pamh, &known, &KNOWN);
    if (result != PAM_SUCCESS && result != PAM_ACCT_EXPIRED && result != PAM_NEW_AUTHTOK_REQD)
        return result;
    log_failure(pamh, question->name);
    return PAM_AUTH_ERR;
}

int pam_sm_authenticate(pam_handle_t *pamh, int flags, int argc, const char **argv) {
    struct question question;
    int result = begin(pamh, &question, argc, argv);
    if (result == PAM_SUCCESS)
        result = get_password(pamh, PAM_AUTHTOK, &question.password);
    return result == PAM_SUCCESS ? verify(pamh, &question, flags) : result;
}

int pam_sm_setcred(pam_handle_t *pamh, int flags, int argc, const char **argv) {
    (void)pamh, (void)flags, (void)argc, (void)argv;
    return PAM_SUCCESS;
}

int pam_sm_acct_mgmt(pam_handle_t *pamh, int flags, int argc, const char **argv) {
    (void)flags;
    struct question question;
    int result = begin(pamh, &question, argc, argv);
    return result == PAM_SUCCESS ? ask(pamh, &question, &KNOWN) : result;
}

/* Asks whether the book has the name. Without an answer, returns PAM_TRY_AGAIN, since no change has
 * begun yet. */
static int known(pam_handle_t *pamh, const struct question *question) {
    int result = ask(pamh, question, &KNOWN);
    if (result == PAM_NEW_AUTHTOK_REQD)
        return PAM_SUCCESS;
    return result == PAM_AUTHINFO_UNAVAIL ? PAM_TRY_AGAIN : result;
}

/* The first call verifies the old password of a name that the book has. */
static int begin_change(pam_handle_t *pamh, struct question *question) {
    int result = known(pamh, question);
    if (result == PAM_SUCCESS)
        result = get_password(pamh, PAM_OLDAUTHTOK, &question->password);
    if (result == PAM_SUCCESS)
        result = verify(pamh, question, 0);
    return result == PAM_AUTHINFO_UNAVAIL ? PAM_TRY_AGAIN : result;
}

/* The second call changes the password. The call asks for the new one even if the book lacks the
 * name or doesn't answer: a later module with use_authtok needs the new password. */
static int finish_change(pam_handle_t *pamh, struct question *question) {
    int found = known(pamh, question), result = PAM_SUCCESS;
    if (found == PAM_SUCCESS)
        result = get_password(pamh, PAM_OLDAUTHTOK, &question->password);
    if (result == PAM_SUCCESS && found != PAM_ACCT_EXPIRED)
        result = get_password(pamh, PAM_AUTHTOK, &question->fresh);
    if (result != PAM_SUCCESS || found != PAM_SUCCESS)
        return result != PAM_SUCCESS ? result : found;
    if (!is_password(question, question->password, 0) || !is_password(question, question->fresh, 0))
        return PAM_AUTHTOK_ERR;
    result = ask(pamh, question, &CHANGE);
    return result == PAM_AUTH_ERR ? PAM_AUTHTOK_ERR : result;
}

/* Another module's password must be changed. The second call asks for the new password: a later
 * module with use_authtok needs it, and can't ask itself. */
static int pass_expired(pam_handle_t *pamh, int flags) {
    const char *fresh;
    if (flags & PAM_PRELIM_CHECK)
        return PAM_IGNORE;
    int result = get_password(pamh, PAM_AUTHTOK, &fresh);
    return result == PAM_SUCCESS ? PAM_IGNORE : result;
}

int pam_sm_chauthtok(pam_handle_t *pamh, int flags, int argc, const char **argv) {
    struct question question;
    int result = begin(pamh, &question, argc, argv);
    if (result != PAM_SUCCESS)
        return result;
    if ((flags & PAM_CHANGE_EXPIRED_AUTHTOK) != 0 &&
        ask(pamh, &question, &KNOWN) != PAM_NEW_AUTHTOK_REQD)
        return pass_expired(pamh, flags);
    return flags & PAM_PRELIM_CHECK ? begin_change(pamh, &question)
                                    : finish_change(pamh, &question);
}
