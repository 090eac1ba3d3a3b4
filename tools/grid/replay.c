/* Replays the grid of the twelve elementary routines through libcapi.a, without the program that made it.
   replay FOLDER: reads ROUTINE.first and ROUTINE.second of each routine, prints its worst error in units of the reference's last place with the
   argument, and fails where one is above its limit, where a half is missing or short, or where the two halves hold fewer than 10,000 arguments. */
#include "libc.h"

#define UNARY(name) double lichenoar_##name(double);
UNARY(sqrt) UNARY(exp) UNARY(ln) UNARY(sin) UNARY(cos) UNARY(sinh) UNARY(cosh) UNARY(sin_pi) UNARY(cos_pi) UNARY(round)
double lichenoar_hypot(double, double);
double lichenoar_angle(double, double);

struct routine {
    const char *name;
    double (*one)(double);
    double (*two)(double, double);
    double limit; /* in the range's middle; exp has another in its tails */
};

static const struct routine routines[] = {
    {"sqrt", lichenoar_sqrt, 0, 0.5},      {"hypot", 0, lichenoar_hypot, 1.6},   {"exp", lichenoar_exp, 0, 1.0},
    {"ln", lichenoar_ln, 0, 1.0},          {"sin", lichenoar_sin, 0, 1.0},       {"cos", lichenoar_cos, 0, 1.0},
    {"angle", 0, lichenoar_angle, 1.0},    {"sinh", lichenoar_sinh, 0, 1.0},     {"cosh", lichenoar_cosh, 0, 1.0},
    {"sin_pi", lichenoar_sin_pi, 0, 1.0},  {"cos_pi", lichenoar_cos_pi, 0, 1.0}, {"round", lichenoar_round, 0, 0.0},
};

struct worst {
    double error;
    uint64_t x, y;
    long records;
};

static uint64_t number(const unsigned char *p, int n) {
    uint64_t v = 0;
    for (int i = 0; i < n; i++) v = v << 8 | p[i];
    return v;
}

/* A magnitude as a whole number of 2^-1074 units of 2^(field - 1): its field, and its digits. An infinity counts as 2^1024. */
static int field_of(double x) {
    int field = (int)(bits_of(x) >> 52 & 2047);
    return field == 0 ? 1 : field;
}

static long double digits_of(double x) {
    uint64_t b = bits_of(x);
    uint64_t digits = (b & ((1UL << 52) - 1)) | ((b >> 52 & 2047) == 0 ? 0 : 1UL << 52);
    return b >> 63 ? -(long double)digits : (long double)digits;
}

/* The distance of `got` from the true value, near + left / 32768 last places of `near`, in those places: exact for any result within a few places. */
static double error_of(double got, double near, double left) {
    if (got != got) return 1e9;
    long double g = digits_of(got), n = digits_of(near);
    int apart = field_of(got) - field_of(near);
    if (apart > 8 || apart < -70) return 1e9;
    for (; apart > 0; apart--) g *= 2;
    for (; apart < 0; apart++) g /= 2;
    long double e = g - n - left / 32768.0L;
    return (double)(e < 0 ? -e : e);
}

/* Reads one half. Of exp the arguments beyond 705 are kept apart, in `tail`. */
static int half(const char *folder, const char *which, const struct routine *r, struct worst *middle, struct worst *tail) {
    char path[4096], line[512], name[64], part[64];
    long records;
    snprintf(path, sizeof path, "%s/%s.%s", folder, r->name, which);
    FILE *f = fopen(path, "rb");
    if (!f || !fgets(line, sizeof line, f) || sscanf(line, "%63s %63s seed=%*s records=%ld", name, part, &records) != 3 || strcmp(name, r->name) ||
        strcmp(part, which)) {
        printf("grid: %s cannot be read\n", path);
        if (f) fclose(f);
        return 1;
    }
    int arguments = r->two ? 2 : 1;
    size_t size = (size_t)arguments * 8 + 10;
    unsigned char record[26];
    for (long i = 0; i < records; i++) {
        if (fread(record, 1, size, f) != size) {
            printf("grid: %s is short\n", path);
            fclose(f);
            return 1;
        }
        uint64_t x = number(record, 8), y = r->two ? number(record + 8, 8) : 0;
        double near = value_of(number(record + 8 * arguments, 8));
        double left = (double)(int16_t)number(record + 8 * arguments + 8, 2);
        double got = r->two ? r->two(value_of(x), value_of(y)) : r->one(value_of(x));
        double error = error_of(got, near, left);
        struct worst *w = !strcmp(r->name, "exp") && (value_of(x) > 705.0 || value_of(x) < -705.0) ? tail : middle;
        w->records++;
        if (w->records == 1 || error > w->error) {
            w->error = error;
            w->x = x;
            w->y = y;
        }
    }
    int more = fgetc(f) != -1;
    fclose(f);
    if (more) printf("grid: %s is longer than its first line says\n", path);
    return more;
}

static int report(const char *name, const struct routine *r, const struct worst *w, double limit) {
    int bad = !(w->error <= limit);
    printf("| %s | %ld | %.3f | %016lX", name, w->records, w->error, w->x);
    if (r->two) printf(" %016lX", w->y);
    printf(" | %.1f |%s\n", limit, bad ? " ABOVE ITS LIMIT" : "");
    return bad;
}

int main(int argc, char **argv) {
    if (argc != 2) {
        printf("usage: replay FOLDER\n");
        return 2;
    }
    int bad = 0;
    printf("| routine | arguments | worst error, ulp | at | limit |\n|---|---|---|---|---|\n");
    for (size_t i = 0; i < sizeof routines / sizeof *routines; i++) {
        const struct routine *r = &routines[i];
        struct worst middle = {0}, tail = {0};
        bad |= half(argv[1], "first", r, &middle, &tail);
        bad |= half(argv[1], "second", r, &middle, &tail);
        if (middle.records + tail.records < 10000) {
            printf("grid: %s has only %ld arguments\n", r->name, middle.records + tail.records);
            bad = 1;
        }
        bad |= report(r->name, r, &middle, r->limit);
        if (tail.records) bad |= report("exp beyond ±705", r, &tail, 2.0);
    }
    return bad;
}
