/* The morning page by a plain C program: answer lines on standard input, the page on standard output. It is what times.py holds the proved program's time to,
   and beside count.py the second count that run.sh compares with. Ends with 1 where there were lines beyond the limit, 2 where a read or write failed, else 0.
   Built by cc -O2. */
#include <errno.h>
#include <inttypes.h>
#include <stdint.h>
#include <stdio.h>
#include <stdlib.h>
#include <string.h>
#include <unistd.h>

enum { HEAD = 18, PAIR = 32, MOST_PAIRS = 512, MOST_DIGITS = HEAD + PAIR * MOST_PAIRS, MOST_TERMS = 19, NUMBERS = 16, BLOCK = 1 << 16 };
static const uint64_t most_lines = 4294967295u;
/* 0, and the numbers of docs/refusals.txt */
static const uint8_t listed[NUMBERS] = {1, 1, 1, 1, 1, 1, 1, 1, 1, 1, 1, 1, 1, 1, 0, 1};
/* the value of a digit; NONE of any other byte, which no shift makes fit a field */
static const uint32_t NONE = 0x10000;
static uint32_t digit[256];

typedef struct {
    uint32_t number, zeros, longest, rungs, backward;
} Head;

static uint64_t numbers[NUMBERS], longest[MOST_TERMS + 1], rungs, backward, zeros, unreadable, lines;
static int beyond;

static void lost(const char *what) {
    perror(what);
    exit(2);
}

static inline uint32_t field(const uint8_t *at) { return digit[at[0]] << 12 | digit[at[1]] << 8 | digit[at[2]] << 4 | digit[at[3]]; }

/* With no way out before the end, so that the compiler takes many bytes at once. */
static inline int is_pair(const uint8_t *at) {
    uint8_t bad = 0;
    for (int i = 0; i < PAIR; i++) bad |= ((uint8_t)(at[i] - '0') > 9) & ((uint8_t)(at[i] - 'A') > 5);
    return !bad;
}

static int is_readable(const uint8_t *line, size_t length, Head *head) {
    if (length < HEAD || length > MOST_DIGITS) return 0;
    *head = (Head){digit[line[0]] << 4 | digit[line[1]], field(line + 2), field(line + 6), field(line + 10), field(line + 14)};
    if ((head->zeros | head->rungs | head->backward) >= NONE || head->longest > MOST_TERMS) return 0;
    if (head->number >= NUMBERS || !listed[head->number]) return 0;
    const size_t cells = length - HEAD;
    if (head->number ? cells != 0 : cells == 0 || cells % PAIR != 0) return 0;
    for (size_t at = HEAD; at < length; at += PAIR)
        if (!is_pair(line + at)) return 0;
    return 1;
}

static void count(const uint8_t *line, size_t length) {
    Head head;
    if (lines == most_lines) {
        beyond = 1;
        return;
    }
    lines++;
    if (!is_readable(line, length, &head)) {
        unreadable++;
        return;
    }
    numbers[head.number]++;
    if (head.number) return;
    zeros += head.zeros > 0x8000 ? 0x10000 - head.zeros : head.zeros;
    longest[head.longest]++;
    rungs += head.rungs;
    backward += head.backward;
}

static void print_page(void) {
    printf("answered %" PRIu64 "\n", numbers[0]);
    for (int i = 1; i < NUMBERS; i++)
        if (listed[i]) printf("refused %d %" PRIu64 "\n", i, numbers[i]);
    for (int i = 0; i <= MOST_TERMS; i++) printf("longest %d %" PRIu64 "\n", i, longest[i]);
    printf("rungs %" PRIu64 "\nbackward %" PRIu64 "\nzeros %" PRIu64 "\nunreadable %" PRIu64 "\n", rungs, backward, zeros, unreadable);
    if (beyond) fprintf(stderr, "line %" PRIu64 ": refusal 15\n", most_lines + 1);
    if (fflush(stdout) != 0 || ferror(stdout)) lost("standard output");
}

int main(void) {
    /* a line whose end is not read yet is kept in front of the next block, and of a longer one than any answer as much as shows that it is */
    static uint8_t held[MOST_DIGITS + 1 + BLOCK];
    size_t kept = 0;
    ssize_t got;
    for (int i = 0; i < 256; i++) digit[i] = NONE;
    for (uint32_t i = 0; i < 16; i++) digit[(uint8_t) "0123456789ABCDEF"[i]] = i;
    while ((got = read(0, held + kept, BLOCK)) != 0) {
        if (got < 0 && errno == EINTR) continue;
        if (got < 0) lost("standard input");
        const uint8_t *at = held, *from = held + kept, *end = from + got, *newline;
        for (; (newline = memchr(from, '\n', (size_t)(end - from))) != NULL; at = from = newline + 1) count(at, (size_t)(newline - at));
        kept = (size_t)(end - at) > MOST_DIGITS ? MOST_DIGITS + 1 : (size_t)(end - at);
        memmove(held, at, kept);
    }
    if (kept) count(held, kept);
    print_page();
    return beyond;
}
