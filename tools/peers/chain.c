/* What a rung of the climb, K(v+1) = (2v/z) K(v) + K(v-1), takes on this processor by its chain alone: of either part two products, a difference or sum of them, and a sum, each waiting
   for the one before; the factor is given, nothing is tested or stored. Prints ns a rung, the best of many trials. Built and run by run.sh, with no operations joined or packed. */
#include <stdio.h>
#include <time.h>

enum { RUNGS = 4000, TRIALS = 500 };
static volatile double factor = 1e-9, end;

typedef struct {
    double re, im;
} value;

static double now(void) {
    struct timespec t;
    clock_gettime(CLOCK_MONOTONIC, &t);
    return 1e9 * (double)t.tv_sec + (double)t.tv_nsec;
}

static inline value next(value older, value newer, double re, double im) {
    return (value){older.re + (re * newer.re - im * newer.im), older.im + (re * newer.im + im * newer.re)};
}

int main(void) {
    double best = 1e300;
    for (int trial = 0; trial < TRIALS; trial++) {
        value older = {1, 0.5}, newer = {0.9, 0.4};
        double re = factor, im = factor, begun = now(), spent;
        for (int rung = 0; rung < RUNGS; rung += 2) {
            older = next(older, newer, re, im);
            newer = next(newer, older, re, im);
        }
        spent = now() - begun;
        end = newer.re + newer.im;
        if (spent < best) best = spent;
    }
    printf("a rung's chain alone: %.2f ns\n", best / RUNGS);
    return 0;
}
