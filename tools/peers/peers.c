/* Times lichenoar_k and lichenoar_i beside the Fortran kernels of Algorithm 644 (ZBKNU, ZSERI) on the workloads of docs/PERFORMANCE.md: the same arguments, in one process, interleaved,
   A run is the best of many rounds. peers [ROUNDS [RUNS]] prints a table, the least / the median / the largest of several runs in each cell; with --inputs W it prints the arguments of a workload
   as hexadecimal patterns instead, for times.py. */
#include "../../bindings/c/lichenoar.h"
#include "../accuracy/small_644.h"
#include "../host/splitmix.h"
#include <stdio.h>
#include <stdlib.h>
#include <string.h>
#include <time.h>

enum { ARGUMENTS = 2048, LONG = 64, WORKLOADS = 6, MOST_RUNS = 99 };

typedef struct {
    double v, re, im;
} ask;

static uint64_t state;

static uint64_t raw(void) { return splitmix64(&state); }

static double unit(void) { return (double)(raw() >> 11) * 0x1p-53; }

static ask point(double v, double r) {
    double a, b, q;
    do {
        a = unit();
        b = 2.0 * unit() - 1.0;
        q = a * a + b * b;
    } while (!(q > 0.0 && q <= 1.0));
    q = r / sqrt(q);
    return (ask){v, a * q, b * q};
}

static ask next(char w) {
    double v, m;
    switch (w) {
    case 'a':
        v = (double)(-7 + (int)(raw() % 13));
        m = ldexp(1.0 + unit(), (int)v);
        return (ask){0.0, m, m};
    case 'b':
    case 'B':
        v = 50.0 * unit();
        return point(v, 0.1 + 49.9 * unit());
    case 'c':
        return point(1000.0, 1700.0 + 1300.0 * unit());
    default:
        return point(0.0, 2.0 * unit());
    }
}

static double now(void) {
    struct timespec t;
    clock_gettime(CLOCK_MONOTONIC, &t);
    return 1e9 * (double)t.tv_sec + (double)t.tv_nsec;
}

/* nanoseconds a call, ours and Algorithm 644's */
static void workload(char w, int n, int rounds, double best[2]) {
    static ask asks[ARGUMENTS];
    static double cells[1024], re[512], im[512];
    int k = w != 'd' && w != 'D', scaled = w == 'a' || w == 'b' || w == 'c', count = n > 100 ? LONG : ARGUMENTS, kode = scaled ? 2 : 1, zeros;
    static volatile double sink;
    double sum = 0.0;
    best[0] = best[1] = 1e300;
    lichenoar_answer answer;
    state = 0x6B65727600000000u + (unsigned char)w;
    for (int i = 0; i < count; i++) asks[i] = next(w);
    for (int r = 0; r < rounds; r++) {
        double begun = now(), ended;
        for (int i = 0; i < count; i++) {
            if (k) lichenoar_k(&answer, (uint8_t)scaled, asks[i].v, asks[i].re, asks[i].im, cells, 2 * (size_t)n);
            else lichenoar_i(&answer, (uint8_t)scaled, asks[i].v, asks[i].re, asks[i].im, cells, 2 * (size_t)n);
            sum += cells[0];
        }
        ended = now();
        if (ended - begun < best[0]) best[0] = ended - begun;
        begun = now();
        for (int i = 0; i < count; i++) {
            (k ? zbknu_ : zseri_)(&asks[i].re, &asks[i].im, &asks[i].v, &kode, &n, re, im, &zeros, &tolerance_644, &exponent_644, &approximation_644);
            sum += re[0];
        }
        ended = now();
        if (ended - begun < best[1]) best[1] = ended - begun;
    }
    sink = sum;
    best[0] /= count, best[1] /= count;
}

static int order(const void *a, const void *b) {
    double x = *(const double *)a, y = *(const double *)b;
    return (x > y) - (x < y);
}

/* least / median / largest, which puts them in order */
static void put_spread(double *times, int runs, int digits) {
    qsort(times, (size_t)runs, sizeof *times, order);
    double median = runs % 2 ? times[runs / 2] : (times[runs / 2 - 1] + times[runs / 2]) / 2.0;
    printf(" %.*f / %.*f / %.*f |", digits, times[0], digits, median, digits, times[runs - 1]);
}

int main(int argc, char **argv) {
    if (argc == 3 && !strcmp(argv[1], "--inputs")) {
        state = 0x6B65727600000000u + (unsigned char)argv[2][0];
        for (int i = 0; i < ARGUMENTS; i++) {
            ask q = next(argv[2][0]);
            uint64_t b[3];
            memcpy(b, &q, sizeof b);
            printf("%016llX %016llX %016llX\n", (unsigned long long)b[0], (unsigned long long)b[1], (unsigned long long)b[2]);
        }
        return 0;
    }
    static const char letters[] = "abBcdD";
    static double ours[WORKLOADS][MOST_RUNS], theirs[WORKLOADS][MOST_RUNS], ratios[WORKLOADS][MOST_RUNS];
    int rounds = argc > 1 ? atoi(argv[1]) : 300, runs = argc > 2 ? atoi(argv[2]) : 7;
    if (rounds < 1 || runs < 1 || runs > MOST_RUNS) return 2;
    for (int run = 0; run < runs; run++) {
        fprintf(stderr, "peers: run %d of %d\n", run + 1, runs);
        for (int w = 0; w < WORKLOADS; w++) {
            double best[2];
            workload(letters[w], letters[w] == 'a' ? 2 : letters[w] == 'c' ? 512 : letters[w] == 'd' ? 1 : 10, rounds, best);
            ours[w][run] = best[0], theirs[w][run] = best[1], ratios[w][run] = best[0] / best[1];
        }
    }
    printf("Least / median / largest of %d runs, each the best of %d rounds.\n\n| workload | ns a call | Algorithm 644, ns | ratio |\n|---|---|---|---|\n", runs, rounds);
    for (int w = 0; w < WORKLOADS; w++) {
        printf("| %c |", letters[w]);
        put_spread(ours[w], runs, 1), put_spread(theirs[w], runs, 1), put_spread(ratios[w], runs, 2);
        printf("\n");
    }
    return 0;
}
