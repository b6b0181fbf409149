/* Calls in a program that receives signals, cancels its threads, forks, and may start no thread:
 * each tag is right, helpers handle no signal, and none remains after the call. */
#define _GNU_SOURCE
#include "flags.h"
#include "rigzumal.h"

#include <dirent.h>
#include <pthread.h>
#include <signal.h>
#include <stdatomic.h>
#include <stdbool.h>
#include <sys/resource.h>
#include <sys/time.h>
#include <unistd.h>

enum { LANES = 4, SIGNALS = 400, CANCELS = 20, FORKS = 20, NOBODY = 65534 };

static unsigned char wanted[32];

static void make_tag(unsigned char *tag, uint32_t threads) {
    struct rigzumal_argon2 numbers = {RIGZUMAL_ARGON2ID, RIGZUMAL_VERSION_13, 8192, 1, LANES};
    CHECK_NUMBER(rigzumal_argon2_threads(tag, 32, &numbers, "password", 8, "somesalt", 8, NULL, 0,
                                         NULL, 0, threads),
                 RIGZUMAL_OK);
}

static void try_tags(int times) {
    for (int turn = 0; turn < times; turn++) {
        unsigned char tag[32];
        make_tag(tag, LANES);
        CHECK(memcmp(tag, wanted, sizeof tag) == 0);
    }
}

static int threads_before;

static int threads_now(void) {
    int count = 0;
    DIR *tasks = opendir("/proc/self/task");
    CHECK(tasks != NULL);
    while (readdir(tasks) != NULL)
        count++;
    closedir(tasks);
    return count;
}

static void *nothing(void *unused) {
    return unused;
}

/* The system may list a joined thread for a moment more. */
static void check_threads(void) {
    for (int turn = 0; turn < 200000 && threads_now() > threads_before; turn++)
        usleep(500);
    CHECK(threads_now() <= threads_before);
}

static _Thread_local int is_ours;
static _Atomic(int) handled, handled_elsewhere, is_over;

static void handle(int number) {
    (void)number;
    handled++;
    handled_elsewhere += !is_ours;
}

static void *send_signals(void *caller) {
    is_ours = 1;
    for (int i = 0; i < SIGNALS; i++) {
        if (i % 2 == 0)
            kill(getpid(), SIGUSR1);
        else
            pthread_kill(*(pthread_t *)caller, SIGUSR1);
        usleep(100);
    }
    is_over = 1;
    return NULL;
}

static void test_signals(void) {
    struct sigaction action = {.sa_handler = handle};
    CHECK(sigaction(SIGUSR1, &action, NULL) == 0);
    pthread_t sender, self = pthread_self();
    is_ours = 1;
    CHECK(pthread_create(&sender, NULL, send_signals, &self) == 0);
    while (!is_over)
        try_tags(1);
    CHECK(pthread_join(sender, NULL) == 0);
    CHECK(handled > 0);
    CHECK_NUMBER(handled_elsewhere, 0);
    check_threads();
}

static _Atomic(int) is_within, calls;

static void *call_for_ever(void *unused) {
    for (;;) {
        is_within = 1;
        try_tags(1);
        is_within = 0;
        calls++;
        pthread_testcancel();
    }
    return unused;
}

static void test_cancellation(void) {
    for (int turn = 0; turn < CANCELS; turn++) {
        pthread_t thread;
        void *result;
        calls = 0;
        CHECK(pthread_create(&thread, NULL, call_for_ever, NULL) == 0);
        while (calls == 0)
            usleep(100);
        usleep((useconds_t)turn * 150);
        CHECK(pthread_cancel(thread) == 0);
        CHECK(pthread_join(thread, &result) == 0 && result == PTHREAD_CANCELED);
        CHECK(!is_within);
        check_threads();
    }
}

/* In PID namespaces of their own a child and its parent may both be the first process. */
static bool are_all_first;

WRAP(pid_t, getpid, void) {
    return are_all_first ? 1 : __real_getpid();
}

static pid_t forked;

static void fork_in_handler(int number) {
    (void)number;
    if (forked == -1)
        forked = _Fork(); /* fork waits for malloc's lock, which the call may hold */
}

/* If a handler forks during a call, and the child continues the call, the child returns a right
 * answer or ends by abort. It neither returns a wrong answer nor waits for ever. */
static void test_forks_in_calls(void) {
    struct sigaction action = {.sa_handler = fork_in_handler};
    CHECK(sigaction(SIGALRM, &action, NULL) == 0);
    int aborted = 0;
    for (int turn = 0; turn < 2 * FORKS; turn++) {
        struct itimerval soon = {.it_value.tv_usec = 300 + turn * 317};
        unsigned char tag[32];
        forked = -1;
        CHECK(setitimer(ITIMER_REAL, &soon, NULL) == 0);
        while (forked == -1)
            make_tag(tag, turn % 2 == 0 ? 1 : LANES);
        bool is_right = memcmp(tag, wanted, sizeof tag) == 0;
        if (forked == 0)
            _exit(!is_right);
        int status, waits = 0;
        while (waitpid(forked, &status, WNOHANG) == 0 && waits++ < 20000)
            usleep(1000);
        CHECK(waits < 20000 || kill(forked, SIGKILL) != 0);
        CHECK(is_right &&
              (WIFEXITED(status) ? WEXITSTATUS(status) == 0 : WTERMSIG(status) == SIGABRT));
        aborted += WIFSIGNALED(status);
    }
    CHECK(aborted > 0);
}

/* Calls in a child that may start no thread, while its parent calls too: neither changes the
 * other's memory. */
static void test_no_threads(void) {
    pid_t child = fork();
    if (child == 0) {
        struct rlimit none = {1, 1};
        pthread_t thread;
        CHECK(setrlimit(RLIMIT_NPROC, &none) == 0);
        CHECK(geteuid() != 0 || setuid(NOBODY) == 0);
        CHECK(pthread_create(&thread, NULL, nothing, NULL) != 0 ||
              pthread_create(&thread, NULL, nothing, NULL) != 0);
        try_tags(20);
        _exit(0);
    }
    try_tags(20);
    CHECK_NUMBER(status_of(child), 0);
}

int main(void) {
    make_tag(wanted, 1);
    threads_before = threads_now();
    test_signals();
    test_cancellation();
    test_forks_in_calls();
    are_all_first = HAS_ADVICE;
    test_forks_in_calls();
    are_all_first = false;
    test_no_threads();
    return 0;
}
