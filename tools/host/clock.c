/* The clock of the processor at hand, in GHz: of 1,000 additions in a row each waits for the one before, and takes a cycle; the fastest of many trials counts.
   Prints nothing, and ends with 1, on a processor that it has no such additions for. Built and run by machine.sh. */
#include <stdint.h>
#include <stdio.h>
#include <time.h>

#define TEN(x) x x x x x x x x x x
#if defined(__aarch64__)
#define ADD "add %0, %0, %1\n\t"
#elif defined(__x86_64__)
#define ADD "addq %1, %0\n\t"
#endif

static double now(void) {
    struct timespec t;
    clock_gettime(CLOCK_MONOTONIC, &t);
    return 1e9 * (double)t.tv_sec + (double)t.tv_nsec;
}

int main(void) {
#ifdef ADD
    enum { CHAIN = 1000, TURNS = 200, TRIALS = 100 };
    double best = 1e300;
    uint64_t sum = 0, one = 1; /* a register: of numbers in the instruction some processors add several at once */
    for (int trial = 0; trial < TRIALS; trial++) {
        double begun = now(), spent;
        for (int turn = 0; turn < TURNS; turn++) __asm__ volatile(TEN(TEN(TEN(ADD))) : "+r"(sum) : "r"(one) : "cc");
        spent = now() - begun;
        if (spent < best) best = spent;
    }
    if (sum != (uint64_t)CHAIN * TURNS * TRIALS) return 1;
    printf("%.2f\n", (double)CHAIN * TURNS / best);
    return 0;
#else
    return 1;
#endif
}
