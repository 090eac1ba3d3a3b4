/* lichenoar_page_line and lichenoar_page_join of libcapi.a against expected.h. capi NIGHT COUNT SEED: every line of the file, in turn on one page and each on
   a page of any bits; then COUNT rounds: bytes cut from the file, three runs of its lines joined in every order, pages of any bits joined in every order, and
   now and then pages of as many lines as a page takes. The number, every cell, the page joined from, and what lies around are compared. A failure is told and
   the program ends with 1; the last line says how many calls there were. */
#include "expected.h"
#include "splitmix.h"
#include <stdio.h>
#include <string.h>

typedef struct {
    uint64_t numbers[32], reserved, longest[20], rungs, backward, zeros, lines, unreadable;
} Page;
_Static_assert(sizeof(Page) == 464 && _Alignof(Page) == 8 && sizeof(expected_page) == sizeof(Page), "58 cells");
_Static_assert(offsetof(Page, reserved) == 8 * RESERVED && offsetof(Page, longest) == 8 * LONGEST && offsetof(Page, rungs) == 8 * RUNGS, "the cells' places");
_Static_assert(offsetof(Page, backward) == 8 * BACKWARD && offsetof(Page, zeros) == 8 * ZEROS && offsetof(Page, lines) == 8 * LINES, "the cells' places");

uint32_t lichenoar_page_line(Page *page, const uint8_t *line, size_t length);
uint32_t lichenoar_page_join(Page *into, const Page *from);
int memcmp(const void *, const void *, size_t);

enum { GUARD = 8, NIGHT = 1 << 26, MOST_TEXTS = 1 << 21, COPIED = 20000, RUN = 12 };

/* a page as it is lent, with what lies around it, and what it must hold */
typedef struct {
    uint64_t before[GUARD];
    Page page;
    uint64_t behind[GUARD];
    expected_page wanted;
} Lent;

typedef struct {
    const uint8_t *at;
    size_t length;
} Text;

static uint8_t night[NIGHT];
static Text texts[MOST_TEXTS];
static size_t texts_read;
static Lent clean;
static unsigned long line_calls, join_calls, refused, wrong;

static void check(const char *what, const Lent *got, uint32_t number, uint32_t wanted) {
    refused += wanted != 0;
    int cell = -1, around = memcmp(got->before, clean.before, sizeof got->before) || memcmp(got->behind, clean.behind, sizeof got->behind);
    if (memcmp(&got->page, &got->wanted, sizeof got->page))
        for (cell = 0; ((const uint64_t *)&got->page)[cell] == got->wanted.cell[cell];) cell++;
    if (number == wanted && cell < 0 && !around) return;
    if (wrong++ >= 20) return;
    printf("capi.c: %s: gives %u, expected %u%s", what, number, wanted, around ? "; bytes around a page are written" : "");
    if (cell >= 0) printf("; cell %d is %lu, expected %lu", cell, (unsigned long)((const uint64_t *)&got->page)[cell], (unsigned long)got->wanted.cell[cell]);
    printf(" (call %lu)\n", line_calls + join_calls);
}

static void must(int holds, const char *what) {
    if (!holds && wrong++ < 20) printf("capi.c: %s: not so (call %lu)\n", what, line_calls + join_calls);
}

static uint32_t line_on(Lent *page, const uint8_t *line, size_t length) {
    const uint32_t wanted = expected_line(&page->wanted, line, length), number = lichenoar_page_line(&page->page, line, length);
    line_calls++;
    check("a line", page, number, wanted);
    return number;
}

/* The line at a place that moves, digits on both sides of it, so that a byte beside it that is looked at changes what it is. */
static void line_elsewhere(Lent *page, Text text) {
    static uint8_t room[16 + COPIED + 64];
    uint8_t *place = room + line_calls % 16;
    if (text.length > COPIED) return;
    memcpy(place, text.at, text.length);
    for (size_t i = 0; i < 64; i++) place[text.length + i] = '0';
    line_on(page, place, text.length);
    for (uint8_t *at = room; at < place + text.length; at++) *at = '0';
}

static uint32_t join(Lent *into, const Lent *from) {
    const Lent before = *from;
    const uint32_t wanted = expected_join(&into->wanted, &before.wanted), number = lichenoar_page_join(&into->page, &from->page);
    join_calls++;
    check("a joining", into, number, wanted);
    must(memcmp(from, &before, sizeof before) == 0, "the page joined from stays");
    return number;
}

/* Any bits, those beside which a sum does not fit among them. */
static uint64_t any_cell(uint64_t *state) {
    const uint64_t drawn = splitmix64(state), low = drawn >> 40;
    switch (drawn % 8) {
    case 0: return 0;
    case 1: return low;
    case 2: return ~(uint64_t)0;
    case 3: return ~(uint64_t)0 - low % 70000;
    case 4: return ~(uint64_t)0 - low % 3;
    case 5: return ((uint64_t)1 << 63) + low % 5 - 2;
    case 6: return EXPECTED_MOST_LINES + low % 5 - 2;
    default: return splitmix64(state);
    }
}

/* A page that need not be of any lines; its count of lines is mostly one that takes more. */
static Lent any_page(uint64_t *state) {
    Lent made = clean;
    for (int i = 0; i < CELLS; i++) made.wanted.cell[i] = any_cell(state);
    const uint64_t drawn = splitmix64(state), low = drawn >> 32;
    if (drawn % 8 < 4) made.wanted.cell[LINES] = low % 1000;
    if (drawn % 8 == 4) made.wanted.cell[LINES] = EXPECTED_MOST_LINES - low % 4;
    if (drawn % 8 == 5) made.wanted.cell[LINES] = low;
    if (drawn % 8 == 6) made.wanted.cell[LINES] = EXPECTED_MOST_LINES / 2 + low % 4;
    memcpy(&made.page, &made.wanted, sizeof made.page);
    return made;
}

static int same(const Lent *page, const expected_page *wanted) { return memcmp(&page->page, wanted, sizeof *wanted) == 0; }

static int more_than_all(uint64_t lines, uint64_t more) { return lines > EXPECTED_MOST_LINES || more > EXPECTED_MOST_LINES - lines; }

/* Three pages joined in all six orders and both groupings: where they have too many lines each is refused, else all give one page, `whole` if it is known. */
static void every_order(const Lent *three, const expected_page *whole) {
    static const int orders[6][3] = {{0, 1, 2}, {0, 2, 1}, {1, 0, 2}, {1, 2, 0}, {2, 0, 1}, {2, 1, 0}};
    const uint64_t *lines[3] = {&three[0].wanted.cell[LINES], &three[1].wanted.cell[LINES], &three[2].wanted.cell[LINES]};
    const int over = more_than_all(*lines[0], *lines[1]) || more_than_all(*lines[0] + *lines[1], *lines[2]);
    expected_page first = {{0}};
    for (int i = 0; i < 12; i++) {
        const int *order = orders[i / 2];
        Lent one = three[order[0]], other = three[order[1]];
        uint32_t number = i % 2 ? join(&other, &three[order[2]]) : join(&one, &three[order[1]]);
        number |= i % 2 ? join(&one, &other) : join(&one, &three[order[2]]);
        must(number == (over ? 15 : 0), "pages are refused in every order of joining or in none");
        if (i == 0) memcpy(&first, &one.page, sizeof first);
        must(over || same(&one, whole ? whole : &first), "every order of joining gives one page");
    }
}

/* Runs of the file's lines, each on a page of its own, and all of them on one: joined they are the same. */
static void runs_joined(uint64_t *state) {
    Lent three[3] = {clean, clean, clean}, all = clean;
    for (int i = 0; i < 3; i++) {
        const uint64_t drawn = splitmix64(state);
        for (size_t left = drawn % RUN, at = (drawn >> 16) % texts_read; left > 0; left--, at = (at + 1) % texts_read) {
            line_on(&three[i], texts[at].at, texts[at].length);
            line_on(&all, texts[at].at, texts[at].length);
        }
    }
    every_order(three, &all.wanted);
}

/* Bytes cut from the file anywhere, newlines among them, on a page of any bits. */
static void bytes_cut(uint64_t *state, size_t bytes) {
    Lent page = any_page(state);
    const uint64_t drawn = splitmix64(state);
    const size_t length = drawn % 4 ? (drawn >> 8) % 120 : 18 + 32 * ((drawn >> 8) % 4), at = (drawn >> 32) % bytes;
    line_on(&page, night + at, length < bytes - at ? length : bytes - at);
    line_on(&page, 0, 0);
    line_on(&page, night + at, 0);
}

/* A page of all the lines that a page takes, and what may be joined with it: an empty one alone. One line fewer, and a line or a page of one more is taken. */
static void at_the_limit(Lent *full, Lent *less, Lent *one, const Lent *two, const Lent *half, Text text) {
    Lent empty = clean, other = *full;
    must(line_on(full, text.at, text.length) == 15 && line_on(full, 0, 0) == 15, "a full page takes no line");
    must(join(full, one) == 15 && join(one, full) == 15, "a full page takes no line's page, nor that the full one");
    must(join(full, less) == 15 && join(full, &other) == 15, "a full page takes no full one");
    must(join(full, &empty) == 0 && join(&empty, full) == 0 && same(&empty, &full->wanted), "a full page and an empty one are the full one");
    other = *half;
    must(join(&other, half) == 15, "two pages of 2^31 lines are not joined");
    other = *less;
    must(join(&other, two) == 15 && line_on(&other, text.at, text.length) == 0 && same(&other, &full->wanted), "one less takes a line, and no two");
    must(line_on(&other, text.at, text.length) == 15, "one less takes one line alone");
    must(join(less, one) == 0 && same(less, &full->wanted), "one less takes a page of one line");
}

/* From a page of one line by doubling to every power of two, and by joining these to all the lines that a page takes, 2^32 - 1. */
static void to_the_limit(Text text) {
    static Lent power[32];
    Lent full, less;
    power[0] = clean;
    line_on(&power[0], text.at, text.length);
    for (int i = 1; i < 32; i++) {
        power[i] = power[i - 1];
        must(join(&power[i], &power[i - 1]) == 0, "a page is doubled");
    }
    less = power[1];
    for (int i = 2; i < 32; i++) must(join(&less, &power[i]) == 0, "powers of two are joined");
    full = less;
    must(join(&full, &power[0]) == 0, "all powers of two are joined");
    for (int i = 0; i < CELLS; i++) must(full.wanted.cell[i] == power[0].wanted.cell[i] * EXPECTED_MOST_LINES, "a full page is a line's, so many times");
    at_the_limit(&full, &less, &power[0], &power[1], &power[31], text);
}

/* The lines of the file, as many as there is room for. */
static size_t read_night(const char *path) {
    FILE *file = fopen(path, "r");
    if (!file) return 0;
    const size_t bytes = fread(night, 1, sizeof night, file);
    fclose(file);
    for (size_t at = 0, end; at < bytes && texts_read < MOST_TEXTS; at = end + 1) {
        for (end = at; end < bytes && night[end] != '\n';) end++;
        texts[texts_read++] = (Text){night + at, end - at};
    }
    return bytes;
}

int main(int words, char **word) {
    unsigned long count, seed;
    size_t bytes;
    if (words != 4 || sscanf(word[2], "%lu", &count) != 1 || sscanf(word[3], "%lu", &seed) != 1 || !(bytes = read_night(word[1]))) {
        printf("capi NIGHT COUNT SEED\n");
        return 2;
    }
    uint64_t state = seed;
    for (int i = 0; i < GUARD; i++) {
        clean.before[i] = splitmix64(&state);
        clean.behind[i] = splitmix64(&state);
    }
    Lent all = clean;
    for (size_t i = 0; i < texts_read; i++) {
        Lent page = any_page(&state);
        line_on(&all, texts[i].at, texts[i].length);
        line_elsewhere(&page, texts[i]);
    }
    for (unsigned long i = 0; i < count; i++) {
        const Lent three[3] = {any_page(&state), any_page(&state), any_page(&state)};
        bytes_cut(&state, bytes);
        runs_joined(&state);
        every_order(three, 0);
        if (i % 32 == 0) to_the_limit(texts[splitmix64(&state) % texts_read]);
    }
    printf("capi.c: %lu lines and %lu rounds: %lu calls with a line, %lu joinings, ", (unsigned long)texts_read, count, line_calls, join_calls);
    printf("%lu of them refused, %lu not as expected\n", refused, wrong);
    return wrong != 0;
}
