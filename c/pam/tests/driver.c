/* Asks a PAM service whose file is in a folder, and prints the answers.
 *
 *     driver FOLDER SERVICE USER TASK.. < ANSWERS
 *
 * A task is authenticate, strict (it disallows empty passwords), setcred, account, change or
 * expired (a change of expired passwords). The user - has no name yet. Each prompt reads a line of
 * ANSWERS, in hexadecimal digits. After the last line the conversation fails, or isn't over if
 * AGAIN=1 is in the environment. The driver prints `prompt TEXT` and `log TEXT` as they come, `TASK
 * NUMBER` for each task, and `open N`: the number of files that the tasks left open, or that a
 * child's program would inherit.
 *
 * In the environment: PIECES=1 makes send and recv move one byte at a time, and interrupts every
 * other call of each kind. STOPS=1 stops the driver when the module closes its socket, after the
 * answer, and at the end, so that a test can search its memory. THREADS=N runs the tasks in N
 * threads at once, each for the user USER0, USER1 .. with its own name as each answer. JUMPS=1
 * sets the wall clock forward by an hour at each reading. */
#define _GNU_SOURCE
#include <dirent.h>
#include <errno.h>
#include <fcntl.h>
#include <poll.h>
#include <pthread.h>
#include <security/pam_appl.h>
#include <signal.h>
#include <stdarg.h>
#include <stdbool.h>
#include <stdio.h>
#include <stdlib.h>
#include <string.h>
#include <sys/socket.h>
#include <sys/syscall.h>
#include <sys/un.h>
#include <time.h>
#include <unistd.h>

static bool in_pieces;

/* The module's calls of the C library come here first, since this program exports them. */

static bool is_interrupted(bool *was) {
    *was = in_pieces && !*was;
    if (*was)
        errno = EINTR;
    return *was;
}

ssize_t send(int fd, const void *bytes, size_t size, int flags) {
    static __thread bool was;
    if (is_interrupted(&was))
        return -1;
    return syscall(SYS_sendto, fd, bytes, in_pieces && size > 1 ? 1 : size, flags, NULL, 0);
}

ssize_t recv(int fd, void *bytes, size_t size, int flags) {
    static __thread bool was;
    if (is_interrupted(&was))
        return -1;
    return syscall(SYS_recvfrom, fd, bytes, in_pieces && size > 1 ? 1 : size, flags, NULL, NULL);
}

static int handed_on;

int connect(int fd, __CONST_SOCKADDR_ARG at, socklen_t size) {
    static __thread bool was;
    handed_on += !(fcntl(fd, F_GETFD) & FD_CLOEXEC);
    return is_interrupted(&was) ? -1 : (int)syscall(SYS_connect, fd, at.__sockaddr__, size);
}

int poll(struct pollfd *fds, nfds_t count, int timeout) {
    static __thread bool was;
    return is_interrupted(&was) ? -1 : (int)syscall(SYS_poll, fds, count, timeout);
}

int clock_gettime(clockid_t clock, struct timespec *now) {
    static __thread int looks;
    int answer = (int)syscall(SYS_clock_gettime, clock, now);
    if (answer == 0 && clock == CLOCK_REALTIME && getenv("JUMPS") != NULL)
        now->tv_sec += 3600 * ++looks;
    return answer;
}

int close(int fd) {
    struct sockaddr_un at;
    socklen_t size = sizeof at;
    if (getenv("STOPS") != NULL && getsockname(fd, (struct sockaddr *)&at, &size) == 0 &&
        at.sun_family == AF_UNIX)
        raise(SIGSTOP);
    return (int)syscall(SYS_close, fd);
}

void pam_syslog(const pam_handle_t *pamh, int priority, const char *format, ...) {
    (void)pamh, (void)priority;
    va_list values;
    va_start(values, format);
    char text[512];
    vsnprintf(text, sizeof text, format, values);
    printf("log %s\n", text);
    va_end(values);
}

/* Returns the answer to a prompt: the thread's name, or a line of standard input. */
static char *answer(const char *name) {
    if (name != NULL)
        return strdup(name);
    char line[8192]; /* two digits a byte */
    if (fgets(line, sizeof line, stdin) == NULL)
        return NULL;
    char *text = calloc(1, sizeof line);
    for (size_t i = 0; line[2 * i] != '\n' && line[2 * i] != '\0'; i++) {
        char digits[3] = {line[2 * i], line[2 * i + 1], '\0'};
        text[i] = (char)strtol(digits, NULL, 16);
    }
    return text;
}

static int converse(int count, const struct pam_message **messages, struct pam_response **responses,
                    void *name) {
    *responses = calloc((size_t)count, sizeof **responses);
    for (int i = 0; i < count; i++) {
        if (name == NULL)
            printf("prompt %s\n", messages[i]->msg);
        if (messages[i]->msg_style == PAM_ERROR_MSG || messages[i]->msg_style == PAM_TEXT_INFO)
            continue;
        (*responses)[i].resp = answer(name);
        if ((*responses)[i].resp == NULL) {
            free(*responses);
            *responses = NULL;
            return getenv("AGAIN") == NULL ? PAM_CONV_ERR : PAM_CONV_AGAIN;
        }
    }
    return PAM_SUCCESS;
}

static int done(pam_handle_t *pamh, const char *task) {
    static const struct {
        const char *name;
        int (*call)(pam_handle_t *pamh, int flags);
        int flags;
    } tasks[] = {{"authenticate", pam_authenticate, 0},
                 {"strict", pam_authenticate, PAM_DISALLOW_NULL_AUTHTOK},
                 {"setcred", pam_setcred, PAM_ESTABLISH_CRED},
                 {"account", pam_acct_mgmt, 0},
                 {"change", pam_chauthtok, 0},
                 {"expired", pam_chauthtok, PAM_CHANGE_EXPIRED_AUTHTOK}};
    for (size_t i = 0; i < sizeof tasks / sizeof tasks[0]; i++)
        if (strcmp(task, tasks[i].name) == 0)
            return tasks[i].call(pamh, tasks[i].flags);
    fprintf(stderr, "no task: %s\n", task);
    exit(2);
}

static char **words;

static void do_tasks(const char *user, void *name) {
    pam_handle_t *pamh;
    struct pam_conv conversation = {converse, name};
    if (pam_start_confdir(words[2], user, &conversation, words[1], &pamh) != PAM_SUCCESS)
        exit(3);
    pam_set_item(pamh, PAM_RHOST, "192.0.2.1");
    int result = PAM_SUCCESS;
    for (char **task = words + 4; *task != NULL; task++) {
        result = done(pamh, *task);
        printf("%s %d\n", *task, result);
    }
    pam_end(pamh, result);
}

static void *thread(void *number) {
    char name[64];
    snprintf(name, sizeof name, "%s%d", words[3], *(int *)number);
    do_tasks(name, name);
    return NULL;
}

static int open_files(void) {
    int count = 0;
    DIR *folder = opendir("/proc/self/fd");
    while (readdir(folder) != NULL)
        count++;
    closedir(folder);
    return count;
}

int main(int argc, char **argv) {
    if (argc < 5)
        return 2;
    words = argv;
    in_pieces = getenv("PIECES") != NULL;
    setvbuf(stdout, NULL, _IOLBF, 0);
    int before = open_files();
    if (getenv("THREADS") == NULL) {
        do_tasks(strcmp(argv[3], "-") == 0 ? NULL : argv[3], NULL);
    } else {
        int count = atoi(getenv("THREADS")), numbers[64];
        pthread_t threads[64];
        for (int i = 0; i < count; i++) {
            numbers[i] = i;
            if (pthread_create(&threads[i], NULL, thread, &numbers[i]) != 0)
                return 3;
        }
        for (int i = 0; i < count; i++)
            pthread_join(threads[i], NULL);
    }
    printf("open %d\n", open_files() - before + handed_on);
    if (getenv("STOPS") != NULL)
        raise(SIGSTOP);
    return 0;
}
