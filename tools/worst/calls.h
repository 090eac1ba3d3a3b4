/* A call as the tools of this folder write it: kind (k, i, or g for log-gamma), scaled, the bits of v, re and im, and the number of orders. */
#ifndef LICHENOAR_CALLS_H
#define LICHENOAR_CALLS_H
#include "../../bindings/c/lichenoar.h"
#include <stdio.h>
#include <string.h>

struct call {
    char kind;
    uint8_t scaled;
    double v, re, im;
    unsigned n;
};

static double cells[1024];

static inline unsigned long long word(double x) {
    unsigned long long b;
    memcpy(&b, &x, 8);
    return b;
}

static inline double number(unsigned long long b) {
    double x;
    memcpy(&x, &b, 8);
    return x;
}

/* log-gamma's argument stands in v */
static inline lichenoar_answer made(struct call c) {
    lichenoar_answer a = {0, 0, 0, 0, 0};
    if (c.kind == 'k') lichenoar_k(&a, c.scaled, c.v, c.re, c.im, cells, 2 * (size_t)c.n);
    if (c.kind == 'i') lichenoar_i(&a, c.scaled, c.v, c.re, c.im, cells, 2 * (size_t)c.n);
    if (c.kind == 'g') a.number = lichenoar_log_gamma(c.v).number;
    return a;
}

static inline void write_call(struct call c) { printf("%c %u %016llX %016llX %016llX %u\n", c.kind, c.scaled, word(c.v), word(c.re), word(c.im), c.n); }

/* 1 where the next line held a call */
static inline int read_call(FILE *f, struct call *c) {
    char line[128];
    unsigned long long v, re, im;
    unsigned scaled;
    if (!fgets(line, sizeof line, f) || sscanf(line, " %c %u %llx %llx %llx %u", &c->kind, &scaled, &v, &re, &im, &c->n) != 6 || c->n > 512) return 0;
    c->scaled = (uint8_t)scaled, c->v = number(v), c->re = number(re), c->im = number(im);
    return 1;
}
#endif
