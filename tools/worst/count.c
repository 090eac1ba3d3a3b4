/* Makes each call of a file between two switches of valgrind's callgrind, so that it writes one total of instructions a call; before them all, an empty function is called in the
   same way, whose total is what a call costs its caller. count FILE prints, for each call, the answer's number and counts. Run by count.py. */
#include "calls.h"
#include <valgrind/callgrind.h>

typedef lichenoar_answer *bessel(lichenoar_answer *, uint8_t, double, double, double, double *, size_t);
typedef lichenoar_log_gamma_answer log_gamma(double);

/* one instruction: the return */
#define EMPTY(name) extern void name(void); __asm__(".text\n" #name ":\n\tret\n");
EMPTY(empty)

static lichenoar_answer answer;

__attribute__((noinline)) static void switched(struct call c, bessel *f) {
    CALLGRIND_ZERO_STATS;
    CALLGRIND_TOGGLE_COLLECT;
    f(&answer, c.scaled, c.v, c.re, c.im, cells, 2 * (size_t)c.n);
    CALLGRIND_TOGGLE_COLLECT;
    CALLGRIND_DUMP_STATS;
}

__attribute__((noinline)) static void switched_log_gamma(double x, log_gamma *f) {
    CALLGRIND_ZERO_STATS;
    CALLGRIND_TOGGLE_COLLECT;
    answer.number = f(x).number;
    CALLGRIND_TOGGLE_COLLECT;
    CALLGRIND_DUMP_STATS;
}

int main(int argc, char **argv) {
    FILE *f = argc == 2 ? fopen(argv[1], "r") : 0;
    if (!f) {
        fprintf(stderr, "usage: count FILE\n");
        return 2;
    }
    struct call c = {'k', 0, 0, 0, 0, 1};
    switched(c, (bessel *)empty);
    switched_log_gamma(0, (log_gamma *)empty);
    while (read_call(f, &c)) {
        answer = (lichenoar_answer){0, 0, 0, 0, 0};
        if (c.kind == 'k') switched(c, lichenoar_k);
        if (c.kind == 'i') switched(c, lichenoar_i);
        if (c.kind == 'g') switched_log_gamma(c.v, lichenoar_log_gamma);
        printf("%u %d %u %u %u\n", answer.number, answer.zeros, answer.longest_sum, answer.rungs, answer.backward);
    }
    fclose(f);
    return 0;
}
