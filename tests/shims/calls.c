/* Replaces calls of the C library, and counts the syncs of a program, the most threads that it had
 * started and not yet joined, its requests for memory, and their bytes: the most allocated at any
 * time, and all ever requested. The shim reports the counts when the program ends. A list in /proc
 * may name an ended thread. The shim refuses the request for memory with the number REFUSE_NTH, and
 * reports that. The toolchain has no headers. */
typedef __SIZE_TYPE__ size_t;

#ifdef __aarch64__
enum { FSYNC = 82, FDATASYNC = 83, EXIT_GROUP = 94 };
#else
enum { FSYNC = 74, FDATASYNC = 75, EXIT_GROUP = 231 };
#endif
enum { OUT_OF_MEMORY = 12 };

extern char *getenv(const char *name);
extern int *__errno_location(void);
extern long atol(const char *text);
extern long write(int fd, const void *bytes, size_t size);
extern long syscall(long number, ...);
extern int snprintf(char *text, size_t size, const char *form, ...);
extern void *dlsym(void *handle, const char *name);
extern size_t malloc_usable_size(void *held);

#define NEXT(name) ((__typeof__(&name))dlsym((void *)-1, #name))
#define ADD(count, more) __atomic_add_fetch(&count, more, __ATOMIC_SEQ_CST)

static long syncs, threads, most_threads, held, most_held, asked, requests;

/* Raises the maximum to the present amount. */
static void raise_to(long *most, long now) {
    long seen = __atomic_load_n(most, __ATOMIC_SEQ_CST);

    while (seen < now &&
           !__atomic_compare_exchange_n(most, &seen, now, 0, __ATOMIC_SEQ_CST, __ATOMIC_SEQ_CST))
        ;
}

int fsync(int fd) {
    ADD(syncs, 1);
    return (int)syscall(FSYNC, fd);
}

int fdatasync(int fd) {
    ADD(syncs, 1);
    return (int)syscall(FDATASYNC, fd);
}

int pthread_create(unsigned long *thread, const void *attributes, void *(*start)(void *),
                   void *argument) {
    long now = ADD(threads, 1);
    int fault = NEXT(pthread_create)(thread, attributes, start, argument);

    raise_to(&most_threads, now);
    if (fault)
        ADD(threads, -1);
    return fault;
}

int pthread_join(unsigned long thread, void **value) {
    int fault = NEXT(pthread_join)(thread, value);

    if (!fault)
        ADD(threads, -1);
    return fault;
}

static int is_refused(void) {
    const char *nth = getenv("REFUSE_NTH");

    if (!nth || ADD(requests, 1) != atol(nth))
        return 0;
    (void)!write(2, "REFUSED 1\n", 10);
    *__errno_location() = OUT_OF_MEMORY;
    return 1;
}

/* Counts the block, or none, that a request for this many bytes returned. */
static void *count_block(void *block, size_t size) {
    ADD(asked, (long)size);
    if (block)
        raise_to(&most_held, ADD(held, (long)malloc_usable_size(block)));
    return block;
}

static void uncount_block(void *block) {
    if (block)
        ADD(held, -(long)malloc_usable_size(block));
}

void *malloc(size_t size) {
    return count_block(is_refused() ? 0 : NEXT(malloc)(size), size);
}

void *realloc(void *old, size_t size) {
    void *new;

    if (is_refused())
        return 0;
    uncount_block(old);
    new = NEXT(realloc)(old, size);
    count_block(new ? new : old, size);
    return new;
}

void *aligned_alloc(size_t alignment, size_t size) {
    return count_block(is_refused() ? 0 : NEXT(aligned_alloc)(alignment, size), size);
}

int posix_memalign(void **at, size_t alignment, size_t size) {
    int fault = is_refused() ? OUT_OF_MEMORY : NEXT(posix_memalign)(at, alignment, size);

    count_block(fault ? 0 : *at, size);
    return fault;
}

void free(void *old) {
    uncount_block(old);
    NEXT(free)(old);
}

/* Reports the counts. A program ends by _exit, which runs no destructors, or returns from main. */
__attribute__((destructor)) static void report(void) {
    char told[200];
    int size =
        snprintf(told, sizeof told, "SYNCS %ld\nTHREADS %ld\nPEAK %ld\nASKED %ld\nREQUESTS %ld\n",
                 syncs, most_threads, most_held, asked, requests);

    (void)!write(2, told, (size_t)size);
}

void _exit(int code) {
    report();
    for (;;)
        syscall(EXIT_GROUP, code);
}
