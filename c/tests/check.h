/* The parts that the tests in C share. */
#pragma once

#include <stdio.h>
#include <stdlib.h>
#include <string.h>
#include <sys/wait.h>

#define CHECK(condition)                                                                           \
    do {                                                                                           \
        if (!(condition)) {                                                                        \
            fprintf(stderr, "%s:%d: not so: %s\n", __FILE__, __LINE__, #condition);                \
            exit(1);                                                                               \
        }                                                                                          \
    } while (0)

#define CHECK_NUMBER(call, wanted)                                                                 \
    do {                                                                                           \
        int answered = (call);                                                                     \
        if (answered != (wanted)) {                                                                \
            fprintf(stderr, "%s:%d: %d, and not %d: %s\n", __FILE__, __LINE__, answered, (wanted), \
                    #call);                                                                        \
            exit(1);                                                                               \
        }                                                                                          \
    } while (0)

/* A pointer and its size: of an array, and of a literal without its zero byte. */
#define ARRAY(array) (array), sizeof(array)
#define LITERAL(text) (text), sizeof(text) - 1
#define NO_BYTES NULL, 0

/* The number of elements of an array. */
#define COUNT(array) (sizeof(array) / sizeof(array)[0])

/* Begins the definition of a function that the linker puts before one of the C library, or of our
 * library. */
#define WRAP(result, name, ...)                                                                    \
    result __real_##name(__VA_ARGS__);                                                             \
    result __wrap_##name(__VA_ARGS__);                                                             \
    result __wrap_##name(__VA_ARGS__)

static inline int is_all(const void *start, int byte, size_t size) {
    const unsigned char *bytes = start;
    for (size_t i = 0; i < size; i++)
        if (bytes[i] != byte)
            return 0;
    return 1;
}

/* Returns the status of a child that ends by itself. */
static inline int status_of(pid_t child) {
    int status;
    CHECK(child > 0 && waitpid(child, &status, 0) == child && WIFEXITED(status));
    return WEXITSTATUS(status);
}
