/* Refuses each request for memory in turn, in each call of tests/jobs.c, or in those that are
 * named: the call answers MEMORY, and writes no output. Once no request is refused, the answer is
 * right. The linker puts the functions below before those of the C library. The compiler's
 * sanitizer and valgrind find leaks. */
#define _GNU_SOURCE
#include "check.h"
#include "jobs.h"
#include "libargon2.h"

#include <errno.h>
#include <limits.h>
#include <stdbool.h>
#include <sys/mman.h>

static long granted;      /* the number of granted requests before the refused one */
static int refuses_later; /* whether later ones are refused too */
static int refused;

static int refuses_next(void) {
    int is = granted == 0 || (granted < 0 && refuses_later);
    granted--;
    refused |= is;
    return is;
}

WRAP(int, posix_memalign, void **start, size_t align, size_t size) {
    return refuses_next() ? ENOMEM : __real_posix_memalign(start, align, size);
}

WRAP(void *, malloc, size_t size) {
    return refuses_next() ? NULL : __real_malloc(size);
}

WRAP(void *, realloc, void *start, size_t size) {
    return refuses_next() ? NULL : __real_realloc(start, size);
}

WRAP(void *, mmap, void *at, size_t size, int protection, int flags, int file, off_t offset) {
    return refuses_next() ? MAP_FAILED : __real_mmap(at, size, protection, flags, file, offset);
}

/* The inputs of each call, and the bytes that it leaves if nothing is refused. */
static struct vault given, wanted;

/* Runs the call, grants this many requests, and refuses the next one, with later ones if
 * refuses_later is set: the call is right, or writes no output. Returns whether it refused one. */
static bool try_refusal(const struct job *job, long before) {
    static struct vault left;
    left = given;
    rigzumal_trim(); /* so that the call asks the system for each area */
    refused = 0;
    granted = before;
    int answer = answer_of(job, &left);
    granted = LONG_MAX;
    bool is_right = answer == job->answer, is_of_argon2_h = strncmp(job->name, "argon2", 6) == 0;
    CHECK(memcmp(&left, is_right ? &wanted : &given, sizeof left) == 0);
    CHECK(is_right || refused);
    if (!is_right)
        CHECK_NUMBER(answer, is_of_argon2_h ? ARGON2_MEMORY_ALLOCATION_ERROR : RIGZUMAL_MEMORY);
    return refused;
}

/* Refuses each request of the call in turn, and returns their number. A refused request for an area
 * may be harmless, since a smaller area can replace it. */
static long try_refusals(const struct job *job) {
    wanted = given;
    CHECK_NUMBER(answer_of(job, &wanted), job->answer);
    long most = 0;
    for (refuses_later = 0; refuses_later < 2; refuses_later++) {
        long before = 0;
        while (try_refusal(job, before))
            before++;
        most = before > most ? before : most;
    }
    printf("%s: %ld requests\n", job->name, most);
    return most;
}

/* The arguments: the names of jobs, or none for all jobs. */
int main(int count, char **words) {
    enum { LEAST = 150 };
    granted = LONG_MAX;
    fill_vault(&given);
    for (int i = 1; i < count; i++) {
        const struct job *job = job_of(words[i]);
        CHECK(job != NULL);
        try_refusals(job);
    }
    if (count > 1)
        return 0;
    long requests = 0;
    for (int i = 0; i < job_count; i++)
        requests += try_refusals(&jobs[i]);
    CHECK(requests >= LEAST);
    return 0;
}
