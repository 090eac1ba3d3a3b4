/* What the Fortran of Algorithm 644 calls and is not among its six files, by the C library, and how its two kernels are called. Included once by each program here that runs it. */
#include <complex.h>
#include <float.h>
#include <math.h>

typedef double _Complex pair;

static pair join(double re, double im) { return CMPLX(re, im); }
static void part(pair z, double *re, double *im) { *re = creal(z), *im = cimag(z); }

double d1mach_(const int *i) {
    const double of[] = {0.0, DBL_MIN, DBL_MAX, DBL_EPSILON / 2, DBL_EPSILON, 0.30102999566398119521};
    return of[*i];
}
int i1mach_(const int *i) { return *i == 14 ? 53 : *i == 15 ? -1021 : *i == 16 ? 1024 : 0; }
double xzabs_(const double *a, const double *b) { return hypot(*a, *b); }
void xzexp_(const double *a, const double *b, double *c, double *d) { part(cexp(join(*a, *b)), c, d); }
void xzsqrt_(const double *a, const double *b, double *c, double *d) { part(csqrt(join(*a, *b)), c, d); }
void xzlog_(const double *a, const double *b, double *c, double *d, int *e) { *e = 0, part(clog(join(*a, *b)), c, d); }
void zmlt_(const double *a, const double *b, const double *c, const double *d, double *e, double *f) {
    double re = *a * *c - *b * *d, im = *a * *d + *b * *c;
    *e = re, *f = im;
}
void zdiv_(const double *a, const double *b, const double *c, const double *d, double *e, double *f) {
    double m = 1.0 / hypot(*c, *d), p = *c * m, q = *d * m, re = (*a * p + *b * q) * m, im = (*b * p - *a * q) * m;
    *e = re, *f = im;
}

typedef void kernel(const double *, const double *, const double *, const int *, const int *, double *, double *, int *, const double *, const double *, const double *);
kernel zbknu_, zseri_;

static const double tolerance_644 = DBL_EPSILON, exponent_644 = 700.9217936944459, approximation_644 = 664.8716455337102;
