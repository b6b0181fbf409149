/* Where a filter of system calls refuses mremap, a call whose memory is larger than the bound
 * leaves no address space mapped. */
#define _GNU_SOURCE
#include "check.h"
#include "rigzumal.h"

#include <errno.h>
#include <linux/filter.h>
#include <linux/seccomp.h>
#include <stddef.h>
#include <sys/prctl.h>
#include <sys/syscall.h>
#include <unistd.h>

enum { MIB = 1024 * 1024, BOUND = 16 * MIB };

static void refuse_moves(unsigned fault) {
    struct sock_filter rules[] = {
        BPF_STMT(BPF_LD | BPF_W | BPF_ABS, offsetof(struct seccomp_data, nr)),
        BPF_JUMP(BPF_JMP | BPF_JEQ | BPF_K, __NR_mremap, 0, 1),
        BPF_STMT(BPF_RET | BPF_K, SECCOMP_RET_ERRNO | fault),
        BPF_STMT(BPF_RET | BPF_K, SECCOMP_RET_ALLOW),
    };
    struct sock_fprog filter = {COUNT(rules), rules};
    CHECK(prctl(PR_SET_NO_NEW_PRIVS, 1, 0, 0, 0) == 0);
    CHECK(prctl(PR_SET_SECCOMP, SECCOMP_MODE_FILTER, &filter) == 0);
}

/* Returns the address space of this process in pages. */
static long mapped_pages(void) {
    long pages;
    FILE *file = fopen("/proc/self/statm", "r");
    CHECK(file != NULL && fscanf(file, "%ld", &pages) == 1 && fclose(file) == 0);
    return pages;
}

/* Computes a key with a table of twice the memory that the heap keeps. */
static void hash(void) {
    uint8_t key[32];
    struct rigzumal_scrypt numbers = {15, 8, 1};
    int fault = rigzumal_scrypt(ARRAY(key), &numbers, LITERAL("password"), LITERAL("somesalt"));
    CHECK_NUMBER(fault, RIGZUMAL_OK);
}

int main(void) {
    static const unsigned faults[] = {ENOSYS, EPERM, EACCES};
    rigzumal_keep(BOUND);
    for (size_t i = 0; i < COUNT(faults); i++) {
        pid_t child = fork();
        if (child == 0) {
            refuse_moves(faults[i]);
            hash();
            long before = mapped_pages();
            for (int turn = 0; turn < 3; turn++)
                hash();
            CHECK((mapped_pages() - before) * sysconf(_SC_PAGESIZE) < BOUND);
            _exit(0);
        }
        CHECK(status_of(child) == 0);
    }
    return 0;
}
