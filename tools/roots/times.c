/* times: each form of forms.c, first held to a root by comparing squares of 128 bits, then timed: the least of 60 trials of 20,000 calls, in ns, where each call waits for the one
   before (latency) and where it does not (throughput). Ends with 1 where a form is wrong. */
#include <math.h>
#include <stdint.h>
#include <stdio.h>
#include <time.h>

typedef uint64_t u64;
#define FORMS(X) X(one_branch) X(one_chosen) X(one_chosen_unrolled) X(one_beside_rolled) X(one_beside) X(one_beside_unrolled) X(two_branches) X(two) X(two_unrolled) X(kept) X(kept_unrolled) X(in_a_row) X(side_by_side)
#define DECLARED(form) u64 form(u64);
#define LISTED(form) { #form, form },
FORMS(DECLARED)
static const struct { const char *name; u64 (*root)(u64); } forms[] = { FORMS(LISTED) };
enum { SINGLE = 11, COUNT = sizeof forms / sizeof *forms, CALLS = 20000, TRIALS = 60 };

volatile u64 sink;

static double now(void) {
    struct timespec t;
    clock_gettime(CLOCK_MONOTONIC, &t);
    return 1e9 * (double)t.tv_sec + (double)t.tv_nsec;
}

static u64 number(u64 i) { return (1ULL << 52) + ((i * 0x9E3779B97F4A7C15ULL) >> 11); }

static u64 nearest(u64 n) {
    unsigned __int128 x = (unsigned __int128)n << 52;
    u64 r = (u64)sqrt((double)n * 0x1p52);
    while ((unsigned __int128)r * r > x) r--;
    while ((unsigned __int128)(r + 1) * (r + 1) <= x) r++;
    return r + (x - (unsigned __int128)r * r > r);
}

int main(void) {
    u64 sum = 0;
    printf("| form | latency, ns | throughput, ns |\n|---|---|---|\n");
    for (int f = 0; f < COUNT; f++) {
        for (u64 i = 0; i < 1000000; i++) {
            u64 n = i < 4 ? (1ULL << 52) + i : i < 8 ? (1ULL << 54) - (i - 3) : i % 2 ? number(i) : 2 * number(i) - (1ULL << 52);
            if (n >= 1ULL << 54) n = (1ULL << 54) - 1;
            u64 wanted = f < SINGLE ? nearest(n) : nearest(n) + nearest(n ^ 12345);
            if (f >= SINGLE && (n ^ 12345) >> 54) continue;
            if (forms[f].root(n) != wanted) return printf("%s is wrong at %016llX\n", forms[f].name, (unsigned long long)n), 1;
        }
        double waiting = 1e300, free = 1e300;
        for (int trial = 0; trial < TRIALS; trial++) {
            double begun = now(), spent;
            for (u64 i = 0; i < CALLS; i++) sum = forms[f].root(number(i) + (sum & 1));
            if ((spent = now() - begun) < waiting) waiting = spent;
            begun = now();
            for (u64 i = 0; i < CALLS; i++) sum += forms[f].root(number(i));
            if ((spent = now() - begun) < free) free = spent;
        }
        printf("| %s | %.1f | %.1f |\n", forms[f].name, waiting / CALLS, free / CALLS);
    }
    sink = sum;
    return 0;
}
