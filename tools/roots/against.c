/* against COUNT SEED PROCESSOR: lichenoar_sqrt beside the square root instruction of this processor, bit for bit, a line for each family of arguments;
   the status is 1 if one differs. Where the instruction gives a not-a-number, whichever it is, ours has to be the fixed one.
   A rounding is hard where the root is near q + 1/2, q having 53 digits; an even power of two beside the argument changes none of the root's digits. */
#include "../../bindings/c/lichenoar.h"
#include "../host/splitmix.h"
#include <stdio.h>
#include <stdlib.h>
#include <string.h>

__extension__ typedef unsigned __int128 wide;

/* broken.sh leaves most k of families 2 and 3a out */
#ifndef STEP
#define STEP 1
#endif

#define POWER(e) ((uint64_t)1 << (e))
#define FRACTION (POWER(52) - 1)
#define SIGN POWER(63)
#define INFINITE 0x7FF0000000000000u
#define NOT_A_NUMBER 0x7FF8000000000000u

enum { FRACTIONS = 27, MIDDLES = 2000000, FARTHEST = 1 << 22, OF_A_WIDTH = 1 << 14, NEGATIVES = 1 << 20, SHOWN = 3 };

static uint64_t state, arguments, different, all_arguments, all_different;

static uint64_t raw(void) { return splitmix64(&state); }

static double instruction(double x) {
    double root;
#if defined __x86_64__
#define INSTRUCTION "sqrtsd"
    __asm__("sqrtsd %1, %0" : "=x"(root) : "x"(x));
#elif defined __aarch64__
#define INSTRUCTION "fsqrt"
    __asm__("fsqrt %d0, %d1" : "=w"(root) : "w"(x));
#else
#error "against.c knows the square root instructions of x86-64 and aarch64 alone"
#endif
    return root;
}

static uint64_t pattern(double x) {
    uint64_t bits;
    memcpy(&bits, &x, sizeof bits);
    return bits;
}

static void at(uint64_t bits) {
    double x;
    memcpy(&x, &bits, sizeof x);
    uint64_t ours = pattern(lichenoar_sqrt(x)), theirs = pattern(instruction(x)), wanted = (theirs & ~SIGN) > INFINITE ? NOT_A_NUMBER : theirs;
    arguments++;
    if (ours == wanted) return;
    if (different++ < SHOWN)
        printf("different at %016llX: ours %016llX, the instruction's %016llX\n", (unsigned long long)bits, (unsigned long long)ours,
               (unsigned long long)theirs);
}

static void around(uint64_t bits) { at(bits - 1), at(bits), at(bits + 1); }

static void with_both_signs(uint64_t bits) { at(bits), at(bits | SIGN); }

static void family(const char *name) {
    printf("%-50s %9llu arguments, %llu different\n", name, (unsigned long long)arguments, (unsigned long long)different);
    fflush(stdout);
    all_arguments += arguments, all_different += different;
    arguments = different = 0;
}

static void exponents(void) {
    static const uint64_t fractions[] = {0, 1, 2, FRACTION - 1, FRACTION};
    for (uint64_t field = 0; field < 2048; field++) {
        for (size_t i = 0; i < sizeof fractions / sizeof *fractions; i++) with_both_signs(field << 52 | fractions[i]);
        for (int i = 0; i < FRACTIONS; i++) with_both_signs(field << 52 | raw() >> 12);
    }
}

static void squares(void) {
    for (uint64_t k = POWER(25); k < POWER(26); k += STEP) around(pattern((double)(k * k)));
}

/* (k + 1/2)^2 = m * m / 4 with m = 2k + 1. As m * m is odd, that is an f64 where m * m < 2^53, for 13,898,701 of the k. Elsewhere m * m is below 2^54,
   halfway between two f64, and both are among the three: the conversion gives one, and the other is beside it. */
static void halves(void) {
    for (uint64_t k = POWER(25); k < POWER(26); k += STEP) {
        uint64_t m = 2 * k + 1;
        around(pattern((double)(m * m) / 4.0));
    }
}

/* the normal f64 of these 53 digits at a drawn exponent, even or odd */
static uint64_t normal(uint64_t digits, int odd) {
    uint64_t field = 1 + 2 * (raw() % 1023) + (uint64_t)odd;
    return (field << 52) + (digits - POWER(52));
}

/* around the f64 nearest to (q + 1/2)^2 = m * m / 4, for a drawn m = 2q + 1 of 54 digits: m * m, from 2^106 to 2^108, is rounded to 53 digits */
static void middles(int odd) {
    for (int i = 0; i < MIDDLES; i++) {
        wide square;
        do {
            uint64_t m = POWER(53) | raw() >> 11 | 1;
            square = (wide)m * m;
        } while ((int)(square >> 107) != odd);
        around(normal((uint64_t)(((square >> (53 + odd)) + 1) >> 1), odd));
    }
}

/* The f64 that come closest to a middle: n * 2^52 = q * q + q + r for every even r from -FARTHEST to FARTHEST (an odd r has none). With m = 2q + 1 that is
   m * m = 1 - 4r modulo 2^54, which is solved digit by digit from m = 1, modulo 8, on. Of the four solutions below 2^54 two are from 2^53 on. */
static void closest(int odd) {
    for (int64_t r = -FARTHEST; r <= FARTHEST; r += 2) {
        uint64_t square = 1 - 4 * (uint64_t)r, root = 1;
        for (int known = 3; known < 54; known++) root += ((root * root - square) >> known & 1) << (known - 1);
        uint64_t solutions[] = {POWER(53) + root, POWER(54) - root};
        for (int i = 0; i < 2; i++) {
            wide q = solutions[i] / 2;
            uint64_t n = (uint64_t)((q * q + q + (wide)r) >> 52);
            /* 54 digits are an f64 where the last is 0 */
            if ((int)(n >> 53) == odd && (n & (uint64_t)odd) == 0) at(normal(n >> odd, odd));
        }
    }
}

static void subnormals(void) {
    for (int e = 0; e <= 52; e++) {
        for (uint64_t bits = POWER(e) - 1; bits <= POWER(e) + 1; bits++) with_both_signs(bits);
    }
    for (int width = 1; width <= 52; width++) {
        for (int i = 0; i < OF_A_WIDTH; i++) at(raw() >> (64 - width) | POWER(width - 1));
    }
    /* squares, times the least subnormal, which is an even power of two */
    for (int width = 1; width <= 26; width++) {
        for (int i = 0; i < OF_A_WIDTH; i++) {
            uint64_t k = raw() >> (64 - width) | POWER(width - 1);
            around(k * k);
        }
    }
}

static void special(void) {
    with_both_signs(0), with_both_signs(INFINITE);
    for (int e = 0; e < 52; e++) {
        with_both_signs(INFINITE | POWER(e)), with_both_signs(NOT_A_NUMBER | POWER(e));
        for (int i = 0; i < OF_A_WIDTH; i++) with_both_signs(INFINITE | (raw() >> 12 & ~(POWER(e) - 1)) | POWER(e));
    }
    with_both_signs(INFINITE | FRACTION);
    for (int i = 0; i < NEGATIVES; i++) at(raw() | SIGN);
}

static int is_number(const char *text) { return *text && strspn(text, "0123456789") == strlen(text); }

int main(int argc, char **argv) {
    if (argc != 4 || !is_number(argv[1]) || !is_number(argv[2])) {
        fprintf(stderr, "against: asks for COUNT, SEED and the processor's name\n");
        return 2;
    }
    unsigned long long count = strtoull(argv[1], NULL, 10);
    state = strtoull(argv[2], NULL, 10);
    exponents(), family("1  every exponent, both signs");
    squares(), family("2  around k^2, k of 26 digits");
    halves(), family("3a around (k + 1/2)^2, k of 26 digits");
    middles(0), family("3b around (q + 1/2)^2, q drawn, even exponents");
    middles(1), family("3c around (q + 1/2)^2, q drawn, odd exponents");
    closest(0), family("3d closest to (q + 1/2)^2, even exponents");
    closest(1), family("3e closest to (q + 1/2)^2, odd exponents");
    subnormals(), family("4a subnormals");
    special(), family("4b zeros, infinities, not-a-numbers, negatives");
    /* the sign is 0: a negative argument asks for no root */
    for (unsigned long long i = 0; i < count; i++) at(raw() >> 1);
    family("5  drawn, every exponent");
    printf("%llu arguments, %llu different from " INSTRUCTION " of %s\n", (unsigned long long)all_arguments, (unsigned long long)all_different, argv[3]);
    return all_different != 0;
}
