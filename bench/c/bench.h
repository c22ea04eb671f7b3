// What the programs share: numbers that look random, a clock, and the two ways in which they are run.
#ifndef BENCH_H
#define BENCH_H
#include <stdint.h>
#include <stdio.h>
#include <stdlib.h>
#include <string.h>
#include <time.h>

enum { N = 1024 };

// Words below 2^58, by Knuth's linear congruence.
static inline void fill(uint64_t *a, uint64_t seed) {
    uint64_t x = seed;
    for (int i = 0; i < N; i++) {
        x = x * 6364136223846793005u + 1442695040888963407u;
        a[i] = x >> 6;
    }
}

static inline uint64_t nanoseconds(void) {
    struct timespec t;
    clock_gettime(CLOCK_MONOTONIC, &t);
    return (uint64_t)t.tv_sec * 1000000000u + (uint64_t)t.tv_nsec;
}

struct kernel {
    const char *name;
    void (*run)(void);
};

// `PROGRAM time ROUNDS` prints the best time of each kernel in nanoseconds; `PROGRAM count NAME TIMES` runs one so often.
static inline int bench(int count, char **words, const struct kernel *kernels, int len) {
    if (count == 4 && strcmp(words[1], "count") == 0) {
        for (int k = 0; k < len; k++)
            if (strcmp(words[2], kernels[k].name) == 0)
                for (int i = atoi(words[3]); i > 0; i--) kernels[k].run();
        return 0;
    }
    if (count != 3 || strcmp(words[1], "time") != 0) return 2;
    int rounds = atoi(words[2]);
    for (int k = 0; k < len; k++) {
        uint64_t best = UINT64_MAX;
        for (int i = 0; i < rounds; i++) {
            uint64_t start = nanoseconds();
            kernels[k].run();
            uint64_t took = nanoseconds() - start;
            if (took < best) best = took;
        }
        printf("%s %llu\n", kernels[k].name, (unsigned long long)best);
    }
    return 0;
}
#endif
