/* Reads the lines of oracle/accuracy (with the three columns of algorithm_644.c or without) and adds what Arb says of each: two errors of every side's first and last entry, as M/P,
   and log10 |true|. M is |computed - true| / |true|, complex moduli, in units of 2^-52; P is the larger of the same ratios of the real and of the imaginary part, where a part that is
   zero in truth is left out and one below 2^-1022 is measured as if it were 2^-1022. Precision is raised until the true value has at least 80 good bits, and each of its parts.
   `truth --values` adds the true values, 40 digits. Every 10,000 lines it says so on standard error. */
#include <stdio.h>
#include <stdlib.h>
#include <string.h>
#include <stdint.h>
#include <math.h>
#if __has_include(<flint/acb_hypgeom.h>)
#include <flint/acb_hypgeom.h>
#else
#include <acb_hypgeom.h>
#endif

static double from_bits(const char *word) {
    uint64_t b = strtoull(word, NULL, 16);
    double x;
    memcpy(&x, &b, 8);
    return x;
}

/* Which parts are zero in truth: the imaginary one on the real axis, and one of the two for I of a whole order on the imaginary axis. */
static int zero_parts(int is_k, double v, long place, double re, double im) {
    if (im == 0.0) return 2;
    if (is_k || re != 0.0 || v != floor(v)) return 0;
    return ((long)v + place) % 2 ? 1 : 2;
}

static int good(const acb_t t, int zeros) {
    return acb_rel_accuracy_bits(t) >= 80 && (zeros & 1 || arb_rel_accuracy_bits(acb_realref(t)) >= 80) && (zeros & 2 || arb_rel_accuracy_bits(acb_imagref(t)) >= 80);
}

/* The true value of order v + place at z, scaled or not, with at least 80 good bits in it and in each part; 0 where 65,536 bits do not give them. */
static int truth(acb_t out, int is_k, int scaled, double v, long place, double re, double im, slong *prec) {
    acb_t z, nu, factor;
    acb_init(z), acb_init(nu), acb_init(factor);
    acb_set_d_d(z, re, im);
    int met = 0;
    for (*prec = 128; *prec <= 65536 && !met; *prec *= 2) {
        acb_set_d(nu, v);
        acb_add_si(nu, nu, place, 4096);
        if (is_k) acb_hypgeom_bessel_k(out, nu, z, *prec);
        else acb_hypgeom_bessel_i(out, nu, z, *prec);
        if (scaled) {
            acb_set_d_d(factor, is_k ? re : -fabs(re), is_k ? im : 0.0);
            acb_exp(factor, factor, *prec);
            acb_mul(out, out, factor, *prec);
        }
        met = good(out, zero_parts(is_k, v, place, re, im));
    }
    acb_clear(z), acb_clear(nu), acb_clear(factor);
    return met;
}

/* |x - part| over |part|, or over 2^-1022 where that is larger, in units of 2^-52 */
static double part_error(const arb_t part, double x) {
    arb_t e, size, least;
    arb_init(e), arb_init(size), arb_init(least);
    arb_set_d(e, x), arb_sub(e, e, part, 4096), arb_abs(e, e);
    arb_abs(size, part), arb_set_d(least, 0x1p-1022), arb_max(size, size, least, 64);
    arb_div(e, e, size, 64), arb_mul_2exp_si(e, e, 52);
    double out = arf_get_d(arb_midref(e), ARF_RND_NEAR);
    arb_clear(e), arb_clear(size), arb_clear(least);
    return out;
}

/* The errors of (re, im): two numbers, or z where both are zero, n where one is not finite. */
static void put_error(const acb_t t, int zeros, double re, double im) {
    if (!isfinite(re) || !isfinite(im)) { printf(" n"); return; }
    if (re == 0.0 && im == 0.0) { printf(" z"); return; }
    acb_t c;
    arb_t e, m;
    acb_init(c), arb_init(e), arb_init(m);
    acb_set_d_d(c, re, im);
    acb_sub(c, c, t, 4096);
    acb_abs(e, c, 64), acb_abs(m, t, 64);
    arb_div(e, e, m, 64);
    arb_mul_2exp_si(e, e, 52);
    double of_re = zeros & 1 ? 0.0 : part_error(acb_realref(t), re), of_im = zeros & 2 ? 0.0 : part_error(acb_imagref(t), im);
    printf(" %.6g/%.6g", arf_get_d(arb_midref(e), ARF_RND_NEAR), fmax(of_re, of_im));
    acb_clear(c), arb_clear(e), arb_clear(m);
}

static void put_values(const acb_t t) {
    printf(" "), arf_printd(arb_midref(acb_realref(t)), 40);
    printf(" "), arf_printd(arb_midref(acb_imagref(t)), 40);
}

static void put_size(const acb_t t) {
    arb_t m, ten;
    arb_init(m), arb_init(ten);
    acb_abs(m, t, 64), arb_log(m, m, 64);
    arb_set_ui(ten, 10), arb_log(ten, ten, 64), arb_div(m, m, ten, 64);
    printf(" %.3f", arf_get_d(arb_midref(m), ARF_RND_NEAR));
    arb_clear(m), arb_clear(ten);
}

int main(int count, char **words) {
    int values = count > 1 && strcmp(words[1], "--values") == 0;
    char line[1024], copy[1024], *field[32];
    acb_t t;
    acb_init(t);
    slong prec, highest = 0;
    long lines = 0;
    while (fgets(line, sizeof line, stdin)) {
        if (++lines % 10000 == 0) fprintf(stderr, "truth: %ld lines\n", lines);
        line[strcspn(line, "\n")] = 0;
        strcpy(copy, line);
        int fields = 0;
        for (char *f = strtok(copy, " "); f && fields < 32; f = strtok(NULL, " ")) field[fields++] = f;
        /* region kind scaled n v re im | number 4 cells | answered 4 cells | answered 4 cells */
        int answered = strcmp(field[7], "0") == 0;
        printf("%s", line);
        long n = atol(field[3]);
        for (int end = 0; end < (n == 1 ? 1 : 2) && answered; end++) {
            int is_k = field[1][0] == 'K';
            long place = end ? n - 1 : 0;
            double v = from_bits(field[4]), x = from_bits(field[5]), y = from_bits(field[6]);
            int known = truth(t, is_k, field[2][0] == '1', v, place, x, y, &prec), zeros = zero_parts(is_k, v, place, x, y);
            if (prec > highest) highest = prec;
            for (int side = 8; side + 3 < fields; side += 5) {
                int said = side == 8 || strcmp(field[side - 1], "1") == 0;
                if (!known) printf(" u");
                else if (!said) printf(" -");
                else put_error(t, zeros, from_bits(field[side + 2 * end]), from_bits(field[side + 2 * end + 1]));
            }
            if (known) put_size(t); else printf(" u");
            if (values) put_values(t);
        }
        printf("\n");
    }
    fprintf(stderr, "truth: highest precision tried, in bits: %ld\n", (long)highest / 2);
    acb_clear(t);
    flint_cleanup();
    return 0;
}
