/* Lichenoar from C (C99 and later) and C++: the modified Bessel functions K and I of a complex argument, log-gamma, the frames of a sweep, the page that
   counts answer lines, and the twelve real routines that K, I and log-gamma stand on.

   Link libcapi.a and -lm. No function allocates, keeps anything between calls, reads a file or sets errno; each may be called from any thread.
   Every result is the same in every bit on every processor. The fixed not-a-number is the pattern 7FF8000000000000.

   A call of K or I asks for n consecutive orders v, v+1, .., v+n-1 at z = re + im*i and lends 2n cells: the real part of an entry, then its
   imaginary part. Domain: v from 0 to 1000, n from 1 to 512, re from 0 to 32768, im from -32768 to 32768. What cannot be answered is refused by a
   number, and where several apply the first in this order is given. K: 1, 2, 3, 11, 12, 4, 6, 7, 8. I: 1, 2, 3, 11, 12, 5, 8. Log-gamma: 2, 10, 8.
   A sweep: 13, 9, 1, 2, 3, 11, 12. A page: 15 alone. A refusal by K or I writes the fixed not-a-number into every cell that was lent, and its counts are 0;
   a refused sweep leaves every byte that was lent as it was, and a refused page every cell. The numbers, what each says, and what to do about it:

     0   answered
     1   the number of orders is 0 or above 512, or the number of cells is odd; ask for 1 to 512 orders; where cells are lent, two for each
     2   an argument is infinite or not a number; look at where the argument came from; no setting answers it
     3   the order is not from 0 to 1,000; ask for a first order from 0 to 1,000
     4   K of 0 is infinite; ask at an argument other than 0
     5   the argument is too large for the power series of I; ask for modulus^2/4 - order orders or more and use the first rows; it helps to a modulus
         of 37
     6   the search for the start of the backward steps found none; no input is known that gets it; please report the frame
     7   the climb out of underflow found no two neighbouring orders on scale; ask scaled
     8   a finished value is not finite; ask plain if it was asked scaled; else for fewer or lower orders, or farther from 0; for log-gamma below 2.55e305
     9   no frame or request: a wrong length, digit, kind or scaling; write 56 upper-case hexadecimal digits, 92 for a sweep, kind 01 or 02, scaling 00
         or 01; take carriage returns away
     10  log-gamma of 0 or less; ask above 0
     11  a real part is below 0; ask at real parts of 0 or more; -0 counts as 0
     12  a part is above 32,768 in magnitude; ask at parts from -32,768 to 32,768
     13  a sweep of no steps or of more than 4,096; ask for 1 to 4,096 steps
     15  a page would hold more than 4,294,967,295 lines; begin another page; the full one stands as it was
*/
#ifndef LICHENOAR_H
#define LICHENOAR_H

#include <stddef.h>
#include <stdint.h>

/* The version that this header came with, as words and as numbers. */
#define LICHENOAR_VERSION "0.5.0"
#define LICHENOAR_VERSION_MAJOR 0
#define LICHENOAR_VERSION_MINOR 5
#define LICHENOAR_VERSION_PATCH 0

#ifdef __cplusplus
extern "C" {
#endif

/* What a call of K or I returns beside its cells: 20 bytes. Of a refusal every field but the number is 0. */
typedef struct lichenoar_answer {
    uint32_t number;      /* 0 for an answer, else the refusal's number */
    int32_t zeros;        /* Entries that underflow and were set to 0; entries at which the function itself is 0 are not counted. K: from 0 to n, and they
                             are the first. I: where it is negative, an entry set to 0 stopped the visit, which goes down from the highest order. Its
                             magnitude is then the number of zeros set; the lowest of these is where the visit stopped; the entries above it are
                             finished, and those below it, if there are any, hold the fixed not-a-number in both cells. */
    uint32_t longest_sum; /* terms of the longest sum that was taken: at most 18 for K, 19 for I; 0 where none was */
    uint32_t rungs;       /* steps of recurrence from one order to the next. K: r + n - 2, r being v rounded, or 0 for r = 0 and n = 1. I: downward steps */
    uint32_t backward;    /* backward steps of K's seeds: at most 256. I: always 0 */
} lichenoar_answer;

/* What log-gamma returns: 16 bytes. */
typedef struct lichenoar_log_gamma_answer {
    double value;    /* the fixed not-a-number unless the number is 0 */
    uint32_t number; /* 0 for an answer, else the refusal's number: 2, 8 or 10 */
} lichenoar_log_gamma_answer;

/* What a sweep returns beside its frames: 8 bytes. */
typedef struct lichenoar_sweep_answer {
    uint32_t number; /* 0 where it is not refused, whether or not there was room; else the refusal's number */
    uint32_t needed; /* how many bytes the frames are: 57 a step, 233472 at most. 0 for a refusal */
} lichenoar_sweep_answer;

/* A page: what many answer lines of the frame program come to. 58 cells, 464 bytes; the caller lends it, and this layout stays. A page of zeros is the empty
   one: memset(&page, 0, sizeof page) makes it, and a static page begins as it. Of a page that was made by the two functions below, the cells of `numbers` add
   up to the lines read, those answered and those refused; the cells of `longest` to the answered ones; and lines read + unreadable = lines. */
typedef struct lichenoar_page {
    uint64_t numbers[32]; /* lines read, by their number: [0] those answered, [K] those refused by K; 0 for every K that is no refusal's number */
    uint64_t reserved;    /* 0; kept for a part that is to come */
    uint64_t longest[20]; /* answered lines, by the terms of their longest sum: from 0 to 19 */
    uint64_t rungs;       /* the rungs of the answered lines, added up. Here and below, the counts of a refused line are not added */
    uint64_t backward;    /* their backward steps, added up */
    uint64_t zeros;       /* their entries set to 0, added up, each line's count by its magnitude: of -3 it is 3 */
    uint64_t lines;       /* all lines, the unreadable ones too: at most 4294967295 */
    uint64_t unreadable;  /* lines that are no answer line */
} lichenoar_page;

/* The layout, looked at wherever this header is compiled: there is no array of -1 elements, in any C or C++. */
#define LICHENOAR_AT(field, place) (offsetof(lichenoar_page, field) == (place))
typedef char lichenoar_page_layout
    [sizeof(lichenoar_page) == 464 && LICHENOAR_AT(numbers, 0) && LICHENOAR_AT(reserved, 256) && LICHENOAR_AT(longest, 264) && LICHENOAR_AT(rungs, 424) &&
     LICHENOAR_AT(backward, 432) && LICHENOAR_AT(zeros, 440) && LICHENOAR_AT(lines, 448) && LICHENOAR_AT(unreadable, 456) ? 1 : -1];
#undef LICHENOAR_AT

/* K(v), .., K(v+n-1) at re + im*i, where length = 2n: the modified Bessel function of the second kind. scaled: 0 for the values themselves, any other
   for the values times e^z. Unscaled values of a large re underflow: these entries are 0 and come first; `zeros` is how many.
   The record is written to *answer, and `answer` is returned. `out` must lend `length` cells; it may be any pointer, a null one too, where the length
   is 0. A length that is refused is safe: each of the cells lent is written, and no other. Refused by 1, 2, 3, 11, 12, 4,
   6, 7 or 8. */
lichenoar_answer *lichenoar_k(lichenoar_answer *answer, uint8_t scaled, double v, double re, double im, double *out, size_t length);

/* I(v), .., I(v+n-1) at re + im*i, as for K: the modified Bessel function of the first kind, by its power series, which is taken for |z|*|z|/4 up to
   v + n. scaled: 0 for the values themselves, any other for the values times e^-re. High orders underflow first. Where `zeros` is negative, look at the
   cells before using the low orders: those below the stop hold the fixed not-a-number. Refused by 1, 2, 3, 11, 12, 5 or 8. */
lichenoar_answer *lichenoar_i(lichenoar_answer *answer, uint8_t scaled, double v, double re, double im, double *out, size_t length);

/* The logarithm of the gamma function of x. Refused by 2 where x is not finite, by 10 where it is 0 or less, by 8 where the value is above the largest
   double (from about 2.56e305). */
lichenoar_log_gamma_answer lichenoar_log_gamma(double x);

/* The frames of a sweep, as the frame program takes them: `steps` points, even in each part, from first_re + first_im*i to last_re + last_im*i, and at
   each the same question. kind: 1 for K, 2 for I. scaling: 0 for the values themselves, 1 for scaled ones, and no other. n: how many orders, from 1 to
   512. v: the first of them. steps: from 1 to 4096. A frame is 56 upper-case hexadecimal digits and a newline, 57 bytes a step; no zero byte stands behind.
   Point j, from 0, has in each part first + j*((last - first)/(steps - 1)), each operation rounded once: the last point may differ from the last pair in
   its last bits, and lie past it. For steps = 1 the point is the first pair, and the last pair is not looked at. v and real parts of -0 are made 0. Both
   ends have to lie in the domain of K and I; a point that K or I would refuse is written all the same.
   `out` lends `length` bytes. Where these are `needed` or more, the frames are written over the first of them, and those behind stay as they were; where
   they are fewer, or the sweep is refused, every byte stays. To learn `needed`, lend nothing: with a length of 0 `out` may be any pointer, a null one
   too. Refused by 13, 9, 1, 2, 3, 11 or 12. */
lichenoar_sweep_answer lichenoar_sweep(uint8_t kind, uint8_t scaling, uint32_t n, double v, double first_re, double first_im, double last_re,
                                       double last_im, uint32_t steps, uint8_t *out, size_t length);

/* Counts one answer line of the frame program into the page. `line` lends its `length` bytes, without the newline and apart from the page; with a length of
   0, an empty line, it may be any pointer, a null one too.
   The line is read where every byte is one of 0 to 9 and A to F; the first 18 are there; 1 to 512 times 32 follow them if the number is 0, and none if it is
   another; the number is 0 or in the list above; and the longest sum has at most 19 terms. Nothing else is looked at: values may have any bits. Every other
   line is counted as unreadable, an empty one and one with a carriage return too.
   Gives 0, or 15 exactly when page->lines is 4294967295 or more; every cell then stands as before. Two threads must not count into one page at a time: let
   each have its own, and join them. A page that did not come from here is no trap: 15 goes by `lines` alone, and a cell that would pass 2^64 - 1 stays
   there. */
uint32_t lichenoar_page_line(lichenoar_page *page, const uint8_t *line, size_t length);

/* Adds every cell of `from` to the same cell of `into`, which is then the page of the lines of both. In whatever order pages are joined, the result is the
   same. `from` stays as it is, and must be another page than `into`: to join a page with itself, copy it first.
   Gives 0, or 15 exactly when the `lines` of both together are above 4294967295; both pages then stand as before. Pages that did not come from here: as
   above. */
uint32_t lichenoar_page_join(lichenoar_page *into, const lichenoar_page *from);

/* The twelve real routines. Each is defined for every argument, zeros, infinities and not-a-numbers included; a not-a-number gives the fixed one, but
   for hypot beside an infinity. Each is within 2 units in the last place on a published grid; docs/ACCURACY.md of the repository has the figures. */

/* The square root: the nearest double, ties to even. The fixed not-a-number below 0; each zero is its own root. */
double lichenoar_sqrt(double x);
/* The root of x*x + y*y, with no overflow on the way. Infinity where a part is infinite, whatever the other is. */
double lichenoar_hypot(double x, double y);
/* e to the power x: infinity at infinity, 0 at minus infinity. */
double lichenoar_exp(double x);
/* The natural logarithm: minus infinity at either zero, the fixed not-a-number below. */
double lichenoar_ln(double x);
/* The sine of x radians; of an infinity the fixed not-a-number. */
double lichenoar_sin(double x);
/* The cosine of x radians; of an infinity the fixed not-a-number. */
double lichenoar_cos(double x);
/* The angle of the point (x, y) in radians, from -pi to pi: y comes first, as in atan2, also where both are zero or both infinite. */
double lichenoar_angle(double y, double x);
/* The hyperbolic sine: an infinity is its own. */
double lichenoar_sinh(double x);
/* The hyperbolic cosine: infinity at either infinity. */
double lichenoar_cosh(double x);
/* sin(pi*x): exactly 0 at every whole x; of an infinity the fixed not-a-number. */
double lichenoar_sin_pi(double x);
/* cos(pi*x): exactly 0 at -0.5 and 0.5; of an infinity the fixed not-a-number. */
double lichenoar_cos_pi(double x);
/* The nearest whole number, half away from zero; exact. An infinity is its own. */
double lichenoar_round(double x);

#ifdef __cplusplus
}
#endif
#endif
