/* K of orders 0 and 1 at 1 + 0.5i, with the counts of the steps taken; an I of which the low orders are unfinished; a call that is refused; the frames of
   a sweep; the page of a few answer lines. C99, and C++ too. */
#include "lichenoar.h"
#include <stdio.h>

static void ask(double v, double re, double im) {
    double out[4]; /* two orders: 2n cells, the real part of an entry before its imaginary part */
    lichenoar_answer answer;
    lichenoar_k(&answer, 0, v, re, im, out, 4);
    if (answer.number != 0) {
        printf("K(%g) at %g%+gi: refusal %u; the cells hold %f\n", v, re, im, (unsigned)answer.number, out[0]);
        return;
    }
    for (int i = 0; i < 2; i++) printf("K(%g) at %g%+gi = %.17g%+.17gi\n", v + i, re, im, out[2 * i], out[2 * i + 1]);
    printf("zeros %d, longest sum %u, rungs %u, backward steps %u\n", (int)answer.zeros, (unsigned)answer.longest_sum, (unsigned)answer.rungs,
           (unsigned)answer.backward);
}

/* Where the count is negative the orders below the stop are not-a-numbers: x != x tells them. */
static void ask_i(double v, double re) {
    double out[10];
    lichenoar_answer answer;
    int unfinished = 0;
    lichenoar_i(&answer, 0, v, re, 0, out, 10);
    if (answer.number != 0) return;
    while (unfinished < 5 && out[2 * unfinished] != out[2 * unfinished]) unfinished++;
    printf("I(%g) to I(%g) at %g: zeros %d, the first %d orders unfinished\n", v, v + 4, re, (int)answer.zeros, unfinished);
}

/* Scaled K of orders 0.25 and 1.25 at three points from 1.5 - 0.75i to 2.5 + 0.75i: a line each, for the frame program. */
static void sweep(void) {
    uint8_t lines[3 * 57];
    lichenoar_sweep_answer answer = lichenoar_sweep(1, 1, 2, 0.25, 1.5, -0.75, 2.5, 0.75, 3, lines, sizeof lines);
    if (answer.number == 0 && answer.needed <= sizeof lines) printf("%.*s", (int)answer.needed, (const char *)lines);
}

/* What three lines of the frame program come to: an answer, a refusal by 4, and a line that was cut. */
static void page(void) {
    static const char text[] = "0000000010000000003FED02CD380D17703FC94EB2DB77969A3FF37EB3DB656B713FDC2EE896201B11\n040000000000000000\n04000000\n";
    static lichenoar_page night; /* all zeros, since it is static: the empty page */
    const char *line = text;
    for (const char *at = text; *at != 0; at++) {
        if (*at != '\n') continue;
        if (lichenoar_page_line(&night, (const uint8_t *)line, (size_t)(at - line)) != 0) return; /* 15: it is full, and stands as it was */
        line = at + 1;
    }
    printf("%u lines: %u answered, %u refused by 4, %u unreadable; %u with a longest sum of 16 terms\n", (unsigned)night.lines, (unsigned)night.numbers[0],
           (unsigned)night.numbers[4], (unsigned)night.unreadable, (unsigned)night.longest[16]);
}

int main(void) {
    printf("lichenoar %s\n", LICHENOAR_VERSION);
    ask(0, 1, 0.5);
    ask(0.25, 3, -4);
    ask_i(0.5, 3);
    ask_i(368, 38.5);
    ask(0, 0, 0); /* K of zero */
    sweep();
    page();
    return 0;
}
