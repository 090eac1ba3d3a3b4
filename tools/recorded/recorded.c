/* Replays recorded answers of the Rust text through libcapi.a, bit for bit: a line has log_gamma, the argument's bits, the refusal's number (0 for an answer) and the
   value's bits. recorded FILE: fails at the first difference, and where the file holds fewer than 1,000 lines. */
#include "libc.h"

struct log_gamma {
    double value;
    uint32_t number;
};

struct log_gamma lichenoar_log_gamma(double);

int main(int argc, char **argv) {
    FILE *f = argc == 2 ? fopen(argv[1], "r") : 0;
    if (!f) {
        printf("usage: recorded FILE\n");
        return 2;
    }
    char line[256], name[32];
    long lines = 0, by_number[11] = {0};
    while (fgets(line, sizeof line, f)) {
        uint64_t x, value;
        uint32_t number;
        if (line[0] == '#') continue;
        if (sscanf(line, "%31s %lx %u %lx", name, &x, &number, &value) != 4 || strcmp(name, "log_gamma") || number > 10) {
            printf("recorded: not understood: %s", line);
            return 1;
        }
        struct log_gamma got = lichenoar_log_gamma(value_of(x));
        if (got.number != number || bits_of(got.value) != value) {
            printf("recorded: gives %u %016lX: %s", got.number, bits_of(got.value), line);
            return 1;
        }
        lines++;
        by_number[number]++;
    }
    fclose(f);
    printf("recorded answers: %ld, none different; answered %ld, refused by 2 %ld, by 10 %ld, by 8 %ld\n", lines, by_number[0], by_number[2], by_number[10], by_number[8]);
    return lines < 1000 || !by_number[0] || !by_number[2] || !by_number[10] || !by_number[8];
}
