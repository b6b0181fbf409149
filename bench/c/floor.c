/* Times Argon2's bare memory traffic: each block is the XOR of the block before, of its reference
 * and of its own content on the pass before, in the order of one lane. So the program waits only
 * for the memory.
 *
 *     cc -O3 -march=native bench/c/floor.c -o floor && ./floor KIB PASSES TIMES [none] [chained]
 *
 * The program prints the median and the best processor time in milliseconds, and the time that
 * clears the memory once. With `none` the memory has no huge pages. With `chained` each address
 * waits for the block before, like most of Argon2id's; otherwise no address waits. */
#define _GNU_SOURCE
#include <stdbool.h>
#include <stdint.h>
#include <stdio.h>
#include <stdlib.h>
#include <string.h>
#include <sys/mman.h>
#include <time.h>

enum { WORDS = 128, MOST_TIMES = 1000 };
#define HUGE_PAGE ((size_t)2 * 1024 * 1024)

struct block {
    uint64_t words[WORDS];
};

static double processor_ms(void) {
    struct timespec now;
    clock_gettime(CLOCK_PROCESS_CPUTIME_ID, &now);
    return 1e3 * (double)now.tv_sec + (double)now.tv_nsec / 1e6;
}

static struct block *map_blocks(size_t count, int advice) {
    size_t size = count * sizeof(struct block);
    char *start =
        mmap(NULL, size + HUGE_PAGE, PROT_READ | PROT_WRITE, MAP_PRIVATE | MAP_ANONYMOUS, -1, 0);
    if (start == MAP_FAILED)
        exit(1);
    start += (HUGE_PAGE - (uintptr_t)start % HUGE_PAGE) % HUGE_PAGE;
    madvise(start, size, advice);
    memset(start, 1, size);
    return (struct block *)start;
}

static uint32_t next_random(void) {
    static uint64_t state = 88172645463325252u;
    state ^= state << 13;
    state ^= state >> 7;
    state ^= state << 17;
    return (uint32_t)state;
}

/* Returns a random number that waits for the word, but doesn't depend on its value. */
static uint32_t random_after(uint64_t word) {
    static volatile uint64_t zero;
    return next_random() ^ (uint32_t)(word & zero);
}

/* Chooses the reference by RFC 9106, section 3.4.2: later blocks more often. */
static size_t reference(size_t at, size_t count, int pass, uint64_t word) {
    size_t ready = pass == 0 ? at : count - count / 4;
    uint64_t square = word * word >> 32;
    size_t back = (ready * square >> 32) + 1;
    return (at + count - back) % count;
}

static void mix(struct block *blocks, size_t count, int pass, bool is_chained) {
    for (size_t at = 2; at < count; at++) {
        const uint64_t *before = blocks[at - 1].words;
        uint32_t word = is_chained ? random_after(before[0]) : next_random();
        const uint64_t *other = blocks[reference(at, count, pass, word)].words;
        uint64_t *own = blocks[at].words;
        for (int i = 0; i < WORDS; i++)
            own[i] = before[i] ^ other[i] ^ (pass == 0 ? 0 : own[i]);
    }
}

static int compare(const void *one, const void *other) {
    double difference = *(const double *)one - *(const double *)other;
    return difference < 0 ? -1 : difference > 0;
}

static bool has(char **words, const char *word) {
    while (*words != NULL && strcmp(*words, word) != 0)
        words++;
    return *words != NULL;
}

int main(int given, char **words) {
    if (given < 4)
        return 2;
    bool is_chained = has(words + 4, "chained");
    size_t count = strtoul(words[1], NULL, 10);
    int passes = atoi(words[2]), times = atoi(words[3]);
    static double took[MOST_TIMES], clearing[MOST_TIMES];
    if (times < 1 || times > MOST_TIMES)
        return 2;
    int advice = has(words + 4, "none") ? MADV_NOHUGEPAGE : MADV_HUGEPAGE;
    struct block *blocks = map_blocks(count, advice);
    for (int turn = 0; turn < times; turn++) {
        double start = processor_ms();
        for (int pass = 0; pass < passes; pass++)
            mix(blocks, count, pass, is_chained);
        double mixed = processor_ms();
        explicit_bzero(blocks, count * sizeof *blocks);
        took[turn] = mixed - start;
        clearing[turn] = processor_ms() - mixed;
    }
    qsort(took, (size_t)times, sizeof *took, compare);
    qsort(clearing, (size_t)times, sizeof *clearing, compare);
    printf("%zu KiB, t=%d: %.1f ms (best %.1f), and to clear it %.1f (%.1f)\n", count, passes,
           took[times / 2], took[0], clearing[times / 2], clearing[0]);
    return 0;
}
