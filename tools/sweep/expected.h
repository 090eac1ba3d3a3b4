/* The sweep by another road than the proved one: what lichenoar_sweep must give, and how a request line is read. Points are worked out in double, one rounding
   an operation: whatever includes this file is built with -ffp-contract=off. Used by reference.c, capi.c and times.c. */
#ifndef LICHENOAR_EXPECTED_H
#define LICHENOAR_EXPECTED_H

#include <stddef.h>
#include <stdint.h>
#include <string.h>

#ifdef __clang__
#pragma STDC FP_CONTRACT OFF
#endif
_Static_assert(sizeof(double) == 8 && __FLT_RADIX__ == 2 && __DBL_MANT_DIG__ == 53, "double is IEEE binary64");
_Static_assert(__DBL_MAX_EXP__ == 1024 && __DBL_MIN_EXP__ == -1021 && __DBL_HAS_DENORM__, "double is IEEE binary64");
_Static_assert(__FLT_EVAL_METHOD__ == 0, "an operation on doubles is rounded to double");

enum { REQUEST_DIGITS = 92, HEAD_DIGITS = 24, LINE_BYTES = 57, MOST_STEPS = 4096, MOST_PAIRS = 512 };

typedef struct {
    uint32_t number, needed;
} expected_outcome;

typedef struct {
    uint8_t kind, scaling;
    uint32_t n, steps;
    double v, first_re, first_im, last_re, last_im;
} expected_request;

static inline double double_of(uint64_t bits) {
    double x;
    memcpy(&x, &bits, sizeof x);
    return x;
}

static inline int not_finite(double x) { return !(x >= -0x1.fffffffffffffp1023 && x <= 0x1.fffffffffffffp1023); }

static inline int too_large(double x) { return x > 32768.0 || x < -32768.0; }

/* The refusal of a sweep, 0 for none. The last pair has no part in a sweep of one. */
static inline uint32_t expected_refusal(const expected_request *r) {
    const int both = r->steps != 1;
    if (r->steps == 0 || r->steps > MOST_STEPS) return 13;
    if ((r->kind != 1 && r->kind != 2) || r->scaling > 1) return 9;
    if (r->n == 0 || r->n > MOST_PAIRS) return 1;
    if (not_finite(r->v) || not_finite(r->first_re) || not_finite(r->first_im)) return 2;
    if (both && (not_finite(r->last_re) || not_finite(r->last_im))) return 2;
    if (r->v < 0.0 || r->v > 1000.0) return 3;
    if (r->first_re < 0.0 || (both && r->last_re < 0.0)) return 11;
    if (too_large(r->first_re) || too_large(r->first_im) || (both && (too_large(r->last_re) || too_large(r->last_im)))) return 12;
    return 0;
}

/* The two upper-case digits of each byte, one after the other. */
#define ROW(h) h "0" h "1" h "2" h "3" h "4" h "5" h "6" h "7" h "8" h "9" h "A" h "B" h "C" h "D" h "E" h "F"
static const char digits_of_bytes[2 * 256 + 1] = ROW("0") ROW("1") ROW("2") ROW("3") ROW("4") ROW("5") ROW("6") ROW("7") ROW("8") ROW("9") ROW("A") ROW("B")
    ROW("C") ROW("D") ROW("E") ROW("F");
#undef ROW

/* Eight digits, the highest first. */
static inline void put_word(uint8_t *out, uint32_t word) {
    memcpy(out, digits_of_bytes + 2 * (word >> 24), 2);
    memcpy(out + 2, digits_of_bytes + 2 * (word >> 16 & 255), 2);
    memcpy(out + 4, digits_of_bytes + 2 * (word >> 8 & 255), 2);
    memcpy(out + 6, digits_of_bytes + 2 * (word & 255), 2);
}

static inline void put_double(uint8_t *out, double x) {
    uint64_t bits;
    memcpy(&bits, &x, sizeof bits);
    put_word(out, (uint32_t)(bits >> 32));
    put_word(out + 8, (uint32_t)bits);
}

static inline void put_line(uint8_t *out, const uint8_t *head, double re, double im) {
    memcpy(out, head, HEAD_DIGITS);
    put_double(out + HEAD_DIGITS, re);
    put_double(out + HEAD_DIGITS + 16, im);
    out[LINE_BYTES - 1] = '\n';
}

static inline double zero_without_sign(double x) { return x == 0.0 ? 0.0 : x; }

/* The lines of a sweep that is not refused, 57 bytes each. */
static inline void expected_lines(const expected_request *r, uint8_t *out) {
    const double first_re = zero_without_sign(r->first_re), last_re = zero_without_sign(r->last_re);
    uint8_t head[HEAD_DIGITS];
    put_word(head, (uint32_t)r->kind << 24 | (uint32_t)r->scaling << 16 | r->n);
    put_double(head + 8, zero_without_sign(r->v));
    if (r->steps == 1) {
        put_line(out, head, first_re, r->first_im);
        return;
    }
    const double intervals = (double)(r->steps - 1);
    const double step_re = (last_re - first_re) / intervals, step_im = (r->last_im - r->first_im) / intervals;
    for (uint32_t j = 0; j < r->steps; j++, out += LINE_BYTES) put_line(out, head, first_re + (double)j * step_re, r->first_im + (double)j * step_im);
}

/* What the function must give, and write. */
static inline expected_outcome expected_sweep(const expected_request *r, uint8_t *out, size_t out_len) {
    expected_outcome outcome = {expected_refusal(r), 0};
    if (outcome.number) return outcome;
    outcome.needed = LINE_BYTES * r->steps;
    if (outcome.needed <= out_len) expected_lines(r, out);
    return outcome;
}

/* The value of a digit, 16 for any other byte. */
static inline uint32_t digit_value(uint8_t byte) { return byte >= '0' && byte <= '9' ? byte - '0' : byte >= 'A' && byte <= 'F' ? byte - 'A' + 10 : 16; }

/* Reads the fields of a request line, given without its newline; 0 where the line is malformed. */
static inline int expected_read(const uint8_t *line, size_t length, expected_request *r) {
    static const uint8_t widths[9] = {2, 2, 4, 16, 16, 16, 16, 16, 4};
    uint64_t fields[9];
    if (length != REQUEST_DIGITS) return 0;
    for (int i = 0; i < 9; i++) {
        fields[i] = 0;
        for (int left = widths[i]; left > 0; left--) {
            uint32_t value = digit_value(*line++);
            if (value > 15) return 0;
            fields[i] = fields[i] << 4 | value;
        }
    }
    *r = (expected_request){(uint8_t)fields[0], (uint8_t)fields[1], (uint32_t)fields[2], (uint32_t)fields[8], double_of(fields[3]),
                            double_of(fields[4]), double_of(fields[5]), double_of(fields[6]), double_of(fields[7])};
    return 1;
}

#endif
