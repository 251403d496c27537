// Times the proved ciphers against plain C, in turns within one run, and prints the best of each and their ratio.
#include "plain.h"
#include <stdio.h>
#include <string.h>
#include <time.h>

enum { RUNS = 1000, TURNS = 500 };

typedef uint64_t (*task)(uint64_t seed);

static block key;

static double now(void) {
    struct timespec t;
    clock_gettime(CLOCK_MONOTONIC, &t);
    return t.tv_sec * 1e9 + t.tv_nsec;
}

static uint64_t first_word(const uint8_t *bytes) {
    uint64_t w;
    memcpy(&w, bytes, 8);
    return w;
}

#define TASKS(side)                                                                                                    \
    static uint64_t side##_aes_task(uint64_t seed) {                                                                   \
        block b = {{(uint8_t)seed}};                                                                                   \
        side##_aes(&key, &b, TURNS);                                                                                   \
        return first_word(b.bytes);                                                                                    \
    }                                                                                                                  \
    static uint64_t side##_cmac_task(uint64_t seed) {                                                                  \
        message m = {{(uint8_t)seed}};                                                                                 \
        side##_cmac(&key, &m, TURNS);                                                                                  \
        return first_word(m.bytes);                                                                                    \
    }                                                                                                                  \
    static uint64_t side##_sip_task(uint64_t seed) {                                                                   \
        message m = {{(uint8_t)seed}};                                                                                 \
        for (int i = 0; i < TURNS; i++) {                                                                              \
            uint64_t h = side##_sip(&key, &m);                                                                         \
            memcpy(m.bytes, &h, 8);                                                                                    \
        }                                                                                                              \
        return first_word(m.bytes);                                                                                    \
    }

TASKS(plain)
TASKS(cbench)

static double timed(task f, uint64_t seed, uint64_t *sum) {
    double start = now();
    *sum += f(seed);
    return (now() - start) / TURNS;
}

static int compare(const char *name, task plain, task proved) {
    double best_plain = 1e9, best_proved = 1e9;
    uint64_t sum_plain = 0, sum_proved = 0;
    for (int i = 0; i < RUNS; i++) {
        double t = timed(plain, i, &sum_plain), u = timed(proved, i, &sum_proved);
        best_plain = t < best_plain ? t : best_plain;
        best_proved = u < best_proved ? u : best_proved;
    }
    printf("%-18s plain %7.1f ns  proved %7.1f ns  ratio %.2f\n", name, best_plain, best_proved, best_plain / best_proved);
    return sum_plain == sum_proved;
}

int main(void) {
    for (int i = 0; i < 16; i++)
        key.bytes[i] = i;
    int same = compare("AES-128 block", plain_aes_task, cbench_aes_task);
    same &= compare("AES-CMAC 80 bytes", plain_cmac_task, cbench_cmac_task);
    same &= compare("SipHash 80 bytes", plain_sip_task, cbench_sip_task);
    if (!same)
        printf("the results differ\n");
    return !same;
}
