/* Runs each call on small stacks: of RIGZUMAL_STACK_SIZE bytes, and of a thread with 32 KiB or the
 * least that the system allows. The page below each stack has no access, so that a call that
 * reaches deeper ends the program. On a painted stack, without the clearing, the test measures how
 * deep a call reaches: the library clears a fifth more. The program is bound lazily, and with
 * LD_BIND_NOT the loader looks up each call of the C library again. */
#define _GNU_SOURCE
#include "check.h"
#include "jobs.h"
#include "secrets.h"

#include <pthread.h>
#include <stdbool.h>
#include <sys/mman.h>
#include <ucontext.h>
#include <unistd.h>

enum { PAGE = 4096, PAINT = 0xa5 };

static struct vault vault;
static const struct job *job;
static ucontext_t here, there;
static int answer;
static bool is_painted;
static unsigned char *frame; /* below which a thread's call runs */

WRAP(void, secrets_clear_traces, void) {
    if (!is_painted)
        __real_secrets_clear_traces();
}

/* Maps a stack above a page without access. */
static unsigned char *map_stack(size_t size) {
    unsigned char *mapping = mmap(NULL, PAGE + size, PROT_NONE, MAP_PRIVATE | MAP_ANONYMOUS, -1, 0);
    CHECK(mapping != MAP_FAILED);
    CHECK(mprotect(mapping + PAGE, size, PROT_READ | PROT_WRITE) == 0);
    return mapping + PAGE;
}

static void call(void) {
    answer = answer_of(job, &vault);
}

static void call_on_stack(unsigned char *stack, size_t size) {
    CHECK(getcontext(&there) == 0);
    there.uc_stack.ss_sp = stack;
    there.uc_stack.ss_size = size;
    there.uc_link = &here;
    makecontext(&there, call, 0);
    CHECK(swapcontext(&here, &there) == 0);
}

static void *call_in_thread(void *unused) {
    frame = __builtin_frame_address(0);
    call();
    return unused;
}

static void call_on_thread(unsigned char *stack, size_t size) {
    pthread_attr_t attributes;
    pthread_t thread;
    CHECK(pthread_attr_init(&attributes) == 0);
    CHECK(pthread_attr_setstack(&attributes, stack, size) == 0);
    CHECK(pthread_create(&thread, &attributes, call_in_thread, NULL) == 0);
    CHECK(pthread_join(thread, NULL) == 0);
    pthread_attr_destroy(&attributes);
}

static void call_on_paint(unsigned char *stack, size_t size) {
    memset(stack, PAINT, size);
    is_painted = true;
    call_on_thread(stack, size);
    is_painted = false;
    while (*stack == PAINT)
        stack++;
    CHECK(6 * (frame - stack) <= 5 * CLEARED_STACK);
}

int main(void) {
    size_t least = (size_t)sysconf(_SC_THREAD_STACK_MIN);
    const struct {
        void (*call)(unsigned char *stack, size_t size);
        size_t size;
    } ways[] = {{call_on_stack, RIGZUMAL_STACK_SIZE},
                {call_on_thread, least > 32 * 1024 ? least : 32 * 1024},
                {call_on_paint, 256 * 1024}};
    fill_vault(&vault);
    for (size_t at = 0; at < (size_t)job_count * COUNT(ways); at++) {
        size_t size = ways[at % COUNT(ways)].size;
        job = &jobs[at / COUNT(ways)];
        answer = -1;
        unsigned char *stack = map_stack(size);
        ways[at % COUNT(ways)].call(stack, size);
        CHECK(munmap(stack - PAGE, PAGE + size) == 0);
        CHECK_NUMBER(answer, job->answer);
    }
    return 0;
}
