/* Replaces calls of the C library: while the pipe that HOLD names exists, each sync first reads a
 * byte from it. Once no process has the pipe open for writing, syncs continue. The toolchain has no
 * headers. */
typedef __SIZE_TYPE__ size_t;

#ifdef __aarch64__
enum { FSYNC = 82, FDATASYNC = 83 };
#else
enum { FSYNC = 74, FDATASYNC = 75 };
#endif

extern char *getenv(const char *name);
extern int open(const char *path, int flags, ...);
extern long read(int fd, void *bytes, size_t size);
extern int close(int fd);
extern long syscall(long number, ...);

static void wait_for_a_byte(void) {
    int pipe = open(getenv("HOLD"), 0);
    char byte;

    if (pipe < 0)
        return;
    (void)!read(pipe, &byte, 1);
    close(pipe);
}

int fsync(int fd) {
    wait_for_a_byte();
    return (int)syscall(FSYNC, fd);
}

int fdatasync(int fd) {
    wait_for_a_byte();
    return (int)syscall(FDATASYNC, fd);
}
