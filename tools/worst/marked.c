/* Makes each call of a file between two calls of an empty function, so that a trace of every instruction shows where a call begins and ends.
   marked FILE prints the empty function's address first. The trace is made and read by emulated.py. */
#include "calls.h"

__attribute__((noinline)) void mark(void) { __asm__ volatile(""); }

/* the calls alone, with their arguments in the same registers each time */
__attribute__((noinline)) static void between_marks(struct call c) {
    lichenoar_answer a;
    mark();
    if (c.kind == 'k') lichenoar_k(&a, c.scaled, c.v, c.re, c.im, cells, 2 * (size_t)c.n);
    if (c.kind == 'i') lichenoar_i(&a, c.scaled, c.v, c.re, c.im, cells, 2 * (size_t)c.n);
    if (c.kind == 'g') lichenoar_log_gamma(c.v);
    mark();
}

int main(int argc, char **argv) {
    FILE *f = argc == 2 ? fopen(argv[1], "r") : 0;
    if (!f) {
        printf("usage: marked FILE\n");
        return 2;
    }
    printf("%p %p %p %p\n", (void *)mark, (void *)lichenoar_k, (void *)lichenoar_i, (void *)lichenoar_log_gamma);
    struct call c;
    while (read_call(f, &c)) between_marks(c);
    fclose(f);
    return 0;
}
