/* clock FILE: the least time of 500 runs of each call of a file, in microseconds. */
#define _POSIX_C_SOURCE 200809L
#include "calls.h"
#include <time.h>

static double microseconds(void) {
    struct timespec t;
    clock_gettime(CLOCK_MONOTONIC, &t);
    return 1e6 * (double)t.tv_sec + 1e-3 * (double)t.tv_nsec;
}

int main(int argc, char **argv) {
    FILE *f = argc == 2 ? fopen(argv[1], "r") : 0;
    struct call c;
    if (!f) return 2;
    while (read_call(f, &c)) {
        double best = 1e9;
        for (int i = 0; i < 500; i++) {
            double begun = microseconds(), time;
            made(c);
            time = microseconds() - begun;
            if (time < best) best = time;
        }
        printf("%.2f ", best);
        write_call(c);
    }
    return 0;
}
