// Times calls of the controller against the cipher calls that they need, and bring-up by dirty nodes and by size of memory.
#include <stdint.h>
#include <stdio.h>
#include <stdlib.h>
#include <string.h>
#include <time.h>

uint64_t boardbench_writes(uint64_t *words, uint64_t len, uint64_t slots, uint64_t span, uint64_t turns);
uint64_t boardbench_reads(uint64_t *words, uint64_t len, uint64_t slots, uint64_t span, uint64_t turns);
uint64_t boardbench_bring_ups(uint64_t *words, uint64_t len, uint64_t levels, uint64_t dirty, uint64_t turns);
uint64_t boardbench_seals(uint64_t turns);

static double now(void) {
    struct timespec t;
    clock_gettime(CLOCK_MONOTONIC, &t);
    return t.tv_sec * 1e9 + t.tv_nsec;
}

static uint64_t words[9 * 4680];

// the best of many short runs, in nanoseconds a call
#define BEST(result, runs, turns, call) do { \
    result = 1e18; \
    for (int run = 0; run < (runs); run++) { \
        memset(words, 0, sizeof words); \
        double from = now(); \
        uint64_t done = call; \
        double took = (now() - from) / (turns); \
        if (done != (turns)) { printf("only %lu of %lu\n", (unsigned long)done, (unsigned long)(turns)); exit(1); } \
        if (took < result) result = took; \
    } } while (0)

int main(void) {
    double seal, writes, reads, up;
    BEST(seal, 200, 2000, boardbench_seals(2000));
    printf("one data line sealed: %.0f ns\n", seal);
    for (uint64_t slots = 1; slots <= 64; slots *= 8) {
        BEST(writes, 60, 20000, boardbench_writes(words, 9 * 584, slots, 8 * slots, 20000));
        BEST(reads, 60, 20000, boardbench_reads(words, 9 * 584, slots, 8 * slots, 20000));
        printf("%2lu slots: write %.0f ns, ratio %.2f\n", (unsigned long)slots, writes, seal / writes);
        printf("          read %.0f ns, ratio %.2f\n", reads, seal / reads);
    }
    for (uint64_t levels = 2; levels <= 4; levels++)
        for (uint64_t dirty = 0; dirty <= 8; dirty = dirty ? 2 * dirty : 1) {
            BEST(up, 5, 20000, boardbench_bring_ups(words, 9 * 4680, levels, dirty, 20000));
            printf("levels %lu, %lu dirty: bring-up %.0f ns\n", (unsigned long)levels, (unsigned long)dirty, up);
        }
    return 0;
}
