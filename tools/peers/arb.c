/* Times Arb's K and I on the arguments that it reads (v, re and im as patterns, a line each): arb K|KE|I N, where KE is scaled; N orders a call, 64 bits of working precision, one pass over 200 calls.
   With one word, whatever it is, arb prints the library's version. */
#if __has_include(<flint/acb_hypgeom.h>)
#include <flint/acb_hypgeom.h>
#else
#include <acb_hypgeom.h>
#endif
#include <stdint.h>
#include <stdio.h>
#include <stdlib.h>
#include <string.h>
#include <time.h>

static double now(void) {
    struct timespec t;
    clock_gettime(CLOCK_MONOTONIC, &t);
    return 1e9 * (double)t.tv_sec + (double)t.tv_nsec;
}

int main(int argc, char **argv) {
#ifdef ARB_VERSION
    if (argc == 2) return printf("Arb %s\n", ARB_VERSION) < 0;
#else
    if (argc == 2) return printf("FLINT %s\n", FLINT_VERSION) < 0;
#endif
    if (argc != 3) return 2;
    int scaled = !strcmp(argv[1], "KE"), k = argv[1][0] == 'K', n = atoi(argv[2]), calls = 0;
    unsigned long long b[3];
    double spent = 0.0;
    acb_t v, z, w;
    acb_init(v), acb_init(z), acb_init(w);
    while (calls < 200 && scanf("%llx %llx %llx", &b[0], &b[1], &b[2]) == 3) {
        double x[3];
        memcpy(x, b, sizeof x);
        acb_set_d_d(z, x[1], x[2]);
        double begun = now();
        for (int i = 0; i < n; i++) {
            acb_set_d(v, x[0] + i);
            if (scaled) acb_hypgeom_bessel_k_scaled(w, v, z, 64);
            else if (k) acb_hypgeom_bessel_k(w, v, z, 64);
            else acb_hypgeom_bessel_i(w, v, z, 64);
        }
        spent += now() - begun;
        calls++;
    }
    printf("%.0f\n", spent / calls);
    return calls == 0;
}
