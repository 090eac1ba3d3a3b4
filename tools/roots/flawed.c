/* A square root to be found wrong: the digits of crates/roots/src/sqrt.rt, in C, with the flaw that FLAW names, or with none. For broken.sh. */
#include <stdint.h>
#include <string.h>

enum {
    NONE,
    TRUNCATED,
    TIES_UP,                /* wrong for n = 2^52 + 1 and n = 2^54 - 2 alone, at every even power of two */
    MIDDLE_BY_2,            /* wrong for one n below 2^53 and one above alone: r = 2 */
    MIDDLE_BY_A_THOUSANDTH, /* wrong where the root is between q + 1/2 and q + 1/2 + 1/1024 */
    SQUARES_UP,
    SUBNORMALS_CUT, /* of their last digit */
    LAST_FIELD_INFINITE,
    ZEROS_WITHOUT_SIGN,
    PAYLOADS_KEPT
};

double lichenoar_sqrt(double x);

static uint64_t nearest(uint64_t n) {
    uint64_t left = (n - ((uint64_t)1 << 52)) << 1, twice = (uint64_t)1 << 53, unit = (uint64_t)1 << 52;
    while (unit > 1) {
        unit >>= 1;
        uint64_t trial = twice + unit, taken = -(uint64_t)(left >= trial);
        left = 2 * (left - (trial & taken));
        twice += 2 * unit & taken;
    }
    /* twice is 2q, and left - twice is 2r, the r of against.c */
    if (FLAW == TRUNCATED) return twice >> 1;
    if (FLAW == TIES_UP) return (twice >> 1) + (twice <= left);
    if (FLAW == MIDDLE_BY_2) return (twice >> 1) + (twice + 4 < left);
    if (FLAW == MIDDLE_BY_A_THOUSANDTH) return (twice >> 1) + (twice + (twice >> 9) < left);
    if (FLAW == SQUARES_UP) return (twice >> 1) + (twice < left || left == 0);
    return (twice >> 1) + (twice < left);
}

/* the pattern of the root of a normal number, from its field and its fraction */
static uint64_t root(uint64_t field, uint64_t fraction) {
    uint64_t digits = fraction + ((uint64_t)1 << 52);
    return nearest(field & 1 ? digits : digits << 1) + ((field + 1021) >> 1 << 52);
}

double lichenoar_sqrt(double x) {
    const uint64_t infinite = 0x7FF0000000000000, sign = (uint64_t)1 << 63;
    uint64_t u, r = 0x7FF8000000000000;
    memcpy(&u, &x, sizeof u);
    if (FLAW == LAST_FIELD_INFINITE && u < infinite && u >> 52 == 2046) u = infinite;
    if (u == 0 || u == sign || u == infinite) {
        r = FLAW == ZEROS_WITHOUT_SIGN ? u & ~sign : u;
    } else if (u < (uint64_t)1 << 52) {
        uint64_t shift = (uint64_t)__builtin_clzll(u) - 11;
        if (FLAW == SUBNORMALS_CUT && u > 1) u &= ~(uint64_t)1;
        /* the field is 1 - shift, made positive by an even number */
        r = root(1025 - shift, (u << shift) - ((uint64_t)1 << 52)) - ((uint64_t)512 << 52);
    } else if (u < infinite) {
        r = root(u >> 52, u & (((uint64_t)1 << 52) - 1));
    } else if (FLAW == PAYLOADS_KEPT && (u & ~sign) > infinite) {
        r = u;
    }
    memcpy(&x, &r, sizeof x);
    return x;
}
