/* Adds to each line of `accuracy log_gamma` what DGAMLN of Algorithm 644 gives: 1 or 0 for whether it took the argument, then its value. */
#include "small_644.h"
#include <stdint.h>
#include <stdio.h>
#include <stdlib.h>
#include <string.h>

double dgamln_(const double *, int *);

int main(void) {
    char line[256], word[20];
    while (fgets(line, sizeof line, stdin)) {
        line[strcspn(line, "\n")] = 0;
        if (sscanf(line, "%*s %19s", word) != 1) return 1;
        uint64_t bits = strtoull(word, NULL, 16);
        double x, value;
        int refused = 0;
        memcpy(&x, &bits, 8);
        value = dgamln_(&x, &refused);
        memcpy(&bits, &value, 8);
        printf("%s %d %016llX\n", line, refused == 0, (unsigned long long)bits);
    }
    return 0;
}
