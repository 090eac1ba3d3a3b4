/* Adds to each line of oracle/accuracy what the Fortran of Algorithm 644 gives (ZBKNU for K, ZSERI for I): 1 or 0 for whether it answered with finite entries, then its first and last
   entries. The small routines that the Fortran calls and that are not among its six files: small_644.h. */
#include "small_644.h"
#include <stdint.h>
#include <stdio.h>
#include <stdlib.h>
#include <string.h>

static double from_bits(const char *word) {
    uint64_t b = strtoull(word, NULL, 16);
    double x;
    memcpy(&x, &b, 8);
    return x;
}

static void put(double x) {
    uint64_t b;
    memcpy(&b, &x, 8);
    printf(" %016llX", (unsigned long long)b);
}

int main(void) {
    static double re[512], im[512];
    char line[1024], kind, v[20], x[20], y[20];
    int scaled, n, zeros;
    while (fgets(line, sizeof line, stdin)) {
        line[strcspn(line, "\n")] = 0;
        if (sscanf(line, "%*s %c %d %d %19s %19s %19s", &kind, &scaled, &n, v, x, y) != 6 || n > 512) return 1;
        double order = from_bits(v), zr = from_bits(x), zi = from_bits(y);
        int kode = scaled ? 2 : 1, finite = 1;
        for (int i = 0; i < n; i++) re[i] = im[i] = NAN;
        (kind == 'K' ? zbknu_ : zseri_)(&zr, &zi, &order, &kode, &n, re, im, &zeros, &tolerance_644, &exponent_644, &approximation_644);
        for (int i = 0; i < n; i++) finite &= isfinite(re[i]) && isfinite(im[i]);
        printf("%s %d", line, (finite && zeros >= 0) || (kind == 'I' && zeros < 0));
        put(re[0]), put(im[0]), put(re[n - 1]), put(im[n - 1]);
        printf("\n");
    }
    return 0;
}
