/* Replaces a call of the C library: the monotonic clock shows the seconds in the file CLOCK. The
 * toolchain has no headers. */
typedef __SIZE_TYPE__ size_t;

#ifdef __aarch64__
enum { CLOCK_GETTIME = 113 };
#else
enum { CLOCK_GETTIME = 228 };
#endif
enum { STEADY = 1 };

struct timespec {
    long seconds, nanoseconds;
};

extern char *getenv(const char *name);
extern long atol(const char *text);
extern int open(const char *path, int flags, ...);
extern long read(int fd, void *bytes, size_t size);
extern int close(int fd);
extern long syscall(long number, ...);

int clock_gettime(int clock, struct timespec *now) {
    char text[20];
    int file;
    long size;

    if (clock != STEADY)
        return (int)syscall(CLOCK_GETTIME, clock, now);
    file = open(getenv("CLOCK"), 0);
    size = read(file, text, sizeof text - 1);
    close(file);
    if (size < 0)
        return -1;
    text[size] = 0;
    now->seconds = atol(text);
    now->nanoseconds = 0;
    return 0;
}
