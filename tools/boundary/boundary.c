/* The C boundary's bits: each line of the table is a routine, its argument's bits (two for hypot and angle) and the bits that it must return.
   Every pattern of a not-a-number is an argument too, and the one returned is always 7FF8000000000000. Lines that begin with '#' are remarks. */
#include "libc.h"

#define UNARY(name) double lichenoar_##name(double);
UNARY(sqrt) UNARY(exp) UNARY(ln) UNARY(sin) UNARY(cos) UNARY(sinh) UNARY(cosh) UNARY(sin_pi) UNARY(cos_pi) UNARY(round)
double lichenoar_hypot(double, double);
double lichenoar_angle(double, double);

static const struct {
    const char *name;
    double (*one)(double);
    double (*two)(double, double);
} routines[] = {
    {"sqrt", lichenoar_sqrt, 0}, {"exp", lichenoar_exp, 0},       {"ln", lichenoar_ln, 0},         {"sin", lichenoar_sin, 0},
    {"cos", lichenoar_cos, 0},   {"sinh", lichenoar_sinh, 0},     {"cosh", lichenoar_cosh, 0},     {"sin_pi", lichenoar_sin_pi, 0},
    {"cos_pi", lichenoar_cos_pi, 0}, {"round", lichenoar_round, 0}, {"hypot", 0, lichenoar_hypot}, {"angle", 0, lichenoar_angle},
};

enum { COUNT = sizeof routines / sizeof *routines };

/* Patterns of a not-a-number, quiet and signalling, of both signs: one a place of the fraction, and the full ones. */
static int not_a_number(int i) {
    int bad = 0;
    for (int place = 0; place < 52; place++) {
        for (int full = 0; full < 2; full++) {
            for (int sign = 0; sign < 2; sign++) {
                uint64_t fraction = full ? (2UL << place) - 1 : 1UL << place;
                double x = value_of((uint64_t)sign << 63 | 0x7FF0000000000000UL | fraction);
                double got = routines[i].two ? routines[i].two(x, 1.0) : routines[i].one(x);
                double other = routines[i].two ? routines[i].two(1.0, x) : got;
                if (bits_of(got) != 0x7FF8000000000000UL || bits_of(other) != 0x7FF8000000000000UL) {
                    printf("%s of the pattern %016lX gives %016lX and %016lX\n", routines[i].name, bits_of(x), bits_of(got), bits_of(other));
                    bad = 1;
                }
            }
        }
    }
    return bad;
}

int main(int argc, char **argv) {
    FILE *f = argc == 2 ? fopen(argv[1], "r") : 0;
    if (!f) {
        printf("usage: boundary TABLE\n");
        return 2;
    }
    int bad = 0;
    long lines = 0, each[COUNT] = {0};
    char line[256];
    while (fgets(line, sizeof line, f)) {
        char name[32];
        uint64_t b[3];
        if (line[0] == '#' || line[0] == '\n') continue;
        int n = sscanf(line, "%31s %lx %lx %lx", name, &b[0], &b[1], &b[2]);
        int i = 0;
        while (i < COUNT && strcmp(name, routines[i].name)) i++;
        if (i == COUNT || n != (routines[i].two ? 4 : 3)) {
            printf("boundary: not understood: %s", line);
            bad = 1;
            continue;
        }
        double got = routines[i].two ? routines[i].two(value_of(b[0]), value_of(b[1])) : routines[i].one(value_of(b[0]));
        if (bits_of(got) != b[n - 2]) {
            printf("boundary: gives %016lX: %s", bits_of(got), line);
            bad = 1;
        }
        lines++;
        each[i]++;
    }
    fclose(f);
    for (int i = 0; i < COUNT; i++) {
        bad |= not_a_number(i);
        if (each[i] < 4) {
            printf("boundary: only %ld lines for %s\n", each[i], routines[i].name);
            bad = 1;
        }
    }
    printf("special values: %ld lines, and 208 patterns of a not-a-number for each of %d routines: %s\n", lines, COUNT, bad ? "DIFFERENT" : "as stated");
    return bad;
}
