/* Looks for the longest call by the clock: random calls by region, then small changes to the longest found so far. A call's time is the least of
   several. search KIND LARGEST_V LARGEST_N SECONDS SEED writes the longest calls found, one a line, as calls.h has them; KIND s is K with scaled calls alone. Times move
   with the machine, so what is found here is counted afterwards in instructions (climb.py). The seed fixes the draws; the clock decides what is kept. */
#define _POSIX_C_SOURCE 200809L
#include "../host/splitmix.h"
#include "calls.h"
#include <math.h>
#include <stdio.h>
#include <stdlib.h>
#include <string.h>
#include <time.h>

enum { KEPT = 48 };

struct found {
    struct call call;
    double time;
};

static uint64_t seed;

static uint64_t bits(void) { return splitmix64(&seed); }

static unsigned below(unsigned n) { return (unsigned)(bits() % n); }

static double between(double low, double high) { return low + (high - low) * (double)(bits() >> 11) * 0x1p-53; }

/* a magnitude whose binary exponent is even over low to high */
static double by_exponent(int low, int high) { return ldexp(between(1, 2), low + (int)below((unsigned)(high - low + 1))); }

static double either_sign(double x) { return bits() & 1 ? x : -x; }

static double order(double largest) {
    switch (below(8)) {
    case 0: return largest;
    case 1: return floor(between(0, largest + 1));
    case 2: return fmin(largest, floor(between(0, largest)) + 0.5);
    case 3: return fmin(largest, floor(between(0, largest)) + by_exponent(-50, -2));
    case 4: return fmax(0, largest - between(0, 1));
    default: return between(0, largest);
    }
}

static unsigned count(unsigned largest) { return below(3) ? largest : 1 + below(largest); }

static struct call draw_k(double v, unsigned n) {
    struct call c = {'k', (uint8_t)below(2), order(v), 0, 0, count(n)};
    switch (below(11)) {
    case 0: c.re = between(0, 2), c.im = between(-2, 2); break;
    case 1: c.re = by_exponent(-1070, 1), c.im = below(2) ? 0 : either_sign(by_exponent(-1070, 1)); break;
    case 2: c.re = between(1, 3), c.im = between(-3, 3); break;
    case 3: c.re = between(0, 60), c.im = between(-60, 60); break;
    case 4: c.re = 0, c.im = either_sign(between(0, 60)); break;
    case 5: c.re = between(0, 32768), c.im = between(-32768, 32768); break;
    case 6: c.scaled = 0, c.re = between(664, 1200), c.im = either_sign(by_exponent(-60, 10)); break;
    case 7: c.scaled = 0, c.re = between(664, 710), c.im = either_sign(by_exponent(-60, 3)); break;
    case 8: c.scaled = 0, c.re = between(664, 32768), c.im = between(-32768, 32768); break;
    case 9: c.scaled = 0, c.re = between(664, 720), c.im = between(-32768, 32768); break;
    default: c.re = by_exponent(-10, 14), c.im = either_sign(by_exponent(-60, 14)); break;
    }
    return c;
}

static struct call draw_i(double v, unsigned n) {
    struct call c = {'i', (uint8_t)below(2), order(v), 0, 0, count(n)};
    double edge = 2 * sqrt(c.v + c.n), r = edge, a = 0;
    switch (below(6)) {
    case 0: r = between(0, edge); break;
    case 1: r = edge * (1 - by_exponent(-50, -3)); break;
    case 2: r = by_exponent(-1000, 1); break;
    case 3: r = by_exponent(-60, 1); break;
    case 4: r = between(0, 2); break;
    default: r = between(edge / 2, edge); break;
    }
    switch (below(4)) {
    case 0: break;
    case 1: a = by_exponent(-60, -1); break;
    case 2: a = 1.5707963267948966 - by_exponent(-60, -1); break;
    default: a = between(0, 1.5707963267948966); break;
    }
    c.re = fabs(r * cos(a)), c.im = either_sign(r * sin(a));
    return c;
}

static struct call draw_log_gamma(void) {
    struct call c = {'g', 0, 0, 0, 0, 1};
    switch (below(4)) {
    case 0: c.v = between(0, 7.5); break;
    case 1: c.v = between(0, 120); break;
    case 2: c.v = by_exponent(-1070, 1020); break;
    default: c.v = between(5.5, 8.5); break;
    }
    return c;
}

static double nudged(double x) {
    switch (below(6)) {
    case 0: return x * (1 + either_sign(by_exponent(-50, -1)));
    case 1: return x + either_sign(by_exponent(-40, 4));
    case 2: return floor(x);
    case 3: return ldexp(x, (int)below(9) - 4);
    default: return x * (1 + either_sign(by_exponent(-12, -4)));
    }
}

static struct call changed(struct call c, double v, unsigned n) {
    for (unsigned i = 1 + below(2); i > 0; i--) {
        switch (below(6)) {
        case 0: c.v = fmin(v, fabs(nudged(c.v))); break;
        case 1: c.re = fabs(nudged(c.re)); break;
        case 2: c.im = nudged(c.im); break;
        case 3: c.n = below(2) ? n : 1 + below(n); break;
        case 4: c.scaled ^= below(4) == 0; break;
        default: c.re = fabs(nudged(c.re)), c.im = nudged(c.im); break;
        }
    }
    return c;
}

static struct found kept[KEPT];

static int same(struct call a, struct call b) {
    return a.scaled == b.scaled && a.n == b.n && word(a.v) == word(b.v) && word(a.re) == word(b.re) && word(a.im) == word(b.im);
}

static int is_kept(struct call c) {
    for (int i = 0; i < KEPT; i++) if (same(c, kept[i].call)) return 1;
    return 0;
}

static double seconds(void) {
    struct timespec t;
    clock_gettime(CLOCK_MONOTONIC, &t);
    return (double)t.tv_sec + 1e-9 * (double)t.tv_nsec;
}

static double timed(struct call c, int times) {
    double best = INFINITY;
    while (times-- > 0) {
        double begun = seconds();
        made(c);
        best = fmin(best, seconds() - begun);
    }
    return best;
}

int main(int argc, char **argv) {
    if (argc != 6 || !strchr("ksig", argv[1][0])) {
        fprintf(stderr, "usage: search k|s|i|g LARGEST_V LARGEST_N SECONDS SEED\n");
        return 2;
    }
    char kind = argv[1][0];
    double v = atof(argv[2]), end = seconds() + atof(argv[4]), half = seconds() + atof(argv[4]) / 2;
    unsigned n = (unsigned)atoi(argv[3]);
    seed = strtoull(argv[5], 0, 10);
    long tried = 0;
    while (seconds() < end) {
        struct call c = kind == 'i' ? draw_i(v, n) : kind == 'g' ? draw_log_gamma() : draw_k(v, n);
        if (seconds() > half && below(8)) c = changed(kept[below(KEPT)].call, v, n);
        if (kind == 'g') c.n = 1;
        if (kind == 's') c.scaled = 1;
        c.kind = kind == 's' ? 'k' : kind;
        tried++;
        int least = 0;
        for (int i = 1; i < KEPT; i++) if (kept[i].time < kept[least].time) least = i;
        double time = timed(c, 1);
        if (time <= kept[least].time || is_kept(c)) continue;
        time = timed(c, 7);
        if (time > kept[least].time) kept[least] = (struct found){c, time};
    }
    for (int i = 0; i < KEPT; i++) if (kept[i].time > 0) write_call(kept[i].call);
    fprintf(stderr, "search: %ld calls tried\n", tried);
    return 0;
}
