/* The time of lichenoar_sweep against expected.h's function: sweeps of 4,096 into the same buffer, in turns, one of each. times ROUNDS prints the medians in
   nanoseconds a sweep, their ratio, and the least of each. Built by times.py. */
#define _POSIX_C_SOURCE 199309L
#include "expected.h"
#include <stdio.h>
#include <stdlib.h>
#include <time.h>

typedef struct {
    uint32_t number, needed;
} Sweep;
Sweep lichenoar_sweep(uint8_t kind, uint8_t scaling, uint32_t n, double v, double first_re, double first_im, double last_re, double last_im, uint32_t steps,
                      uint8_t *out, size_t out_len);

enum { MOST_ROUNDS = 100000, BYTES = LINE_BYTES * MOST_STEPS };

static uint8_t ours[BYTES], theirs[BYTES];
static double times[2][MOST_ROUNDS];

static double now(void) {
    struct timespec t;
    clock_gettime(CLOCK_MONOTONIC, &t);
    return 1e9 * (double)t.tv_sec + (double)t.tv_nsec;
}

static int by_size(const void *a, const void *b) {
    const double x = *(const double *)a, y = *(const double *)b;
    return (x > y) - (x < y);
}

int main(int words, char **word) {
    /* through a pointer that the compiler cannot see through, as the function of the archive is */
    expected_outcome (*volatile peer)(const expected_request *, uint8_t *, size_t) = expected_sweep;
    const long rounds = words == 2 ? strtol(word[1], NULL, 10) : 0;
    if (rounds < 1 || rounds > MOST_ROUNDS) return 2;
    for (long i = 0; i < rounds; i++) {
        const expected_request r = {1, 1, 2, MOST_STEPS, 0.25, 0.01 + 0.001 * (double)i, -20.0, 30.0, 0.003 * (double)i};
        const double begun = now();
        const Sweep got = lichenoar_sweep(r.kind, r.scaling, r.n, r.v, r.first_re, r.first_im, r.last_re, r.last_im, r.steps, ours, sizeof ours);
        const double between = now();
        const expected_outcome outcome = peer(&r, theirs, sizeof theirs);
        times[1][i] = now() - between;
        times[0][i] = between - begun;
        if (got.number != outcome.number || got.needed != outcome.needed || got.needed != BYTES || memcmp(ours, theirs, BYTES) != 0) {
            printf("times.c: the two differ in round %ld\n", i);
            return 1;
        }
    }
    for (int i = 0; i < 2; i++) qsort(times[i], (size_t)rounds, sizeof **times, by_size);
    printf("%.0f %.0f %.3f %.0f %.0f\n", times[0][rounds / 2], times[1][rounds / 2], times[0][rounds / 2] / times[1][rounds / 2], times[0][0], times[1][0]);
    return 0;
}
