/* The C interface against known answers. test KNOWN: layouts; every line of KNOWN (bindings/known.txt), bit for bit, in cells full of rubbish with a
   guard on each side; every length to 1,100; negative counts of I; sweeps, every byte of their frames and of what lies around, and each of their refusals;
   pages of the answers of KNOWN, of damaged lines and of every kind of line, joined, full, and of any bits, every cell and what lies around; the real
   routines as the header has them; the version. The last line says whether all was as stated; a failure names its line and the program ends with 1. */
#include "lichenoar.h"
#include <stddef.h>
#include <stdint.h>
#include <stdio.h>
#include <string.h>

#define FIXED 0x7FF8000000000000u
#define GUARD 0x0123456789ABCDEFu

_Static_assert(sizeof(lichenoar_answer) == 20 && _Alignof(lichenoar_answer) == 4, "the record of K and I");
_Static_assert(offsetof(lichenoar_answer, number) == 0 && offsetof(lichenoar_answer, zeros) == 4, "the record of K and I");
_Static_assert(offsetof(lichenoar_answer, longest_sum) == 8 && offsetof(lichenoar_answer, rungs) == 12, "the record of K and I");
_Static_assert(offsetof(lichenoar_answer, backward) == 16, "the record of K and I");
_Static_assert(sizeof(lichenoar_log_gamma_answer) == 16 && _Alignof(lichenoar_log_gamma_answer) == 8, "the record of log-gamma");
_Static_assert(offsetof(lichenoar_log_gamma_answer, value) == 0 && offsetof(lichenoar_log_gamma_answer, number) == 8, "the record of log-gamma");
_Static_assert(sizeof(lichenoar_sweep_answer) == 8 && _Alignof(lichenoar_sweep_answer) == 4, "the record of a sweep");
_Static_assert(offsetof(lichenoar_sweep_answer, number) == 0 && offsetof(lichenoar_sweep_answer, needed) == 4, "the record of a sweep");
_Static_assert(sizeof(lichenoar_page) == 464 && _Alignof(lichenoar_page) == 8, "a page");
_Static_assert(offsetof(lichenoar_page, numbers) == 0 && offsetof(lichenoar_page, reserved) == 256 && offsetof(lichenoar_page, longest) == 264, "a page");
_Static_assert(offsetof(lichenoar_page, rungs) == 424 && offsetof(lichenoar_page, backward) == 432 && offsetof(lichenoar_page, zeros) == 440, "a page");
_Static_assert(offsetof(lichenoar_page, lines) == 448 && offsetof(lichenoar_page, unreadable) == 456, "a page");

static int failed, line;

#define CHECK(fact)                                                             \
    do {                                                                        \
        if (!(fact)) {                                                          \
            printf("test.c:%d: not so: %s (known line %d)\n", __LINE__, #fact, line); \
            failed = 1;                                                         \
        }                                                                       \
    } while (0)

static uint64_t bits(double x) {
    uint64_t b;
    memcpy(&b, &x, sizeof b);
    return b;
}

static double value(uint64_t b) {
    double x;
    memcpy(&x, &b, sizeof x);
    return x;
}

static double room[1200];

typedef lichenoar_answer *function(lichenoar_answer *, uint8_t, double, double, double, double *, size_t);

/* The call on room[1] and what follows. */
static lichenoar_answer guarded(function *f, uint8_t scaled, double v, double re, double im, size_t length) {
    lichenoar_answer a = {77, 77, 77, 77, 77};
    for (size_t i = 0; i < sizeof room / sizeof *room; i++) room[i] = value(GUARD + i);
    CHECK(f(&a, scaled, v, re, im, room + 1, length) == &a);
    CHECK(bits(room[0]) == GUARD);
    for (size_t i = length + 1; i < sizeof room / sizeof *room; i++) CHECK(bits(room[i]) == GUARD + i);
    return a;
}

static void all_fixed(size_t length) {
    for (size_t i = 1; i <= length; i++) CHECK(bits(room[i]) == FIXED);
}

static void answered(const lichenoar_answer *a, size_t length);

/* One line of KNOWN; the refusal's number. */
static unsigned bessel(const char *text) {
    char kind;
    unsigned scaled, length, number, sum, rungs, backward;
    unsigned long long v, re, im, cell;
    int zeros, used = 0;
    CHECK(sscanf(text, "%c %u %llx %llx %llx %u %u %d %u %u %u%n", &kind, &scaled, &v, &re, &im, &length, &number, &zeros, &sum, &rungs, &backward,
                 &used) == 11);
    lichenoar_answer a = guarded(kind == 'k' ? lichenoar_k : lichenoar_i, (uint8_t)scaled, value(v), value(re), value(im), length);
    CHECK(a.number == number && a.zeros == zeros && a.longest_sum == sum && a.rungs == rungs && a.backward == backward);
    if (number) all_fixed(length);
    for (unsigned i = 1; !number && i <= length; i++) {
        int more = 0;
        CHECK(sscanf(text += used, " %llx%n", &cell, &more) == 1);
        CHECK(bits(room[i]) == cell);
        used = more;
    }
    answered(&a, length);
    return number;
}

static unsigned log_gamma(const char *text) {
    unsigned long long x, want;
    unsigned number;
    CHECK(sscanf(text, "g %llx %u %llx", &x, &number, &want) == 3);
    lichenoar_log_gamma_answer a = lichenoar_log_gamma(value(x));
    CHECK(a.number == number && bits(a.value) == want);
    return number;
}

static void known(FILE *f) {
    static char text[4096];
    int calls = 0, met[13] = {0};
    while (fgets(text, sizeof text, f)) {
        line++;
        if (text[0] == '#') continue;
        met[text[0] == 'g' ? log_gamma(text) : bessel(text)]++;
        calls++;
    }
    for (int number = 0; number <= 12; number++) CHECK((met[number] > 0) == (number != 6 && number != 9));
    printf("known answers and refusals: %d\n", calls);
}

static void lengths(void) {
    lichenoar_answer a = {77, 77, 77, 77, 77};
    lichenoar_k(&a, 0, 0, 1, 0, 0, 0);
    CHECK(a.number == 1);
    lichenoar_i(&a, 0, 0, 1, 0, 0, 0);
    CHECK(a.number == 1);
    for (size_t length = 0; length <= 1100; length++) {
        for (int kind = 0; kind < 2; kind++) {
            int taken = length > 0 && length <= 1024 && length % 2 == 0;
            a = guarded(kind ? lichenoar_k : lichenoar_i, 1, 0, kind ? 300 : 1, 0.5, length);
            CHECK(a.number == (taken ? 0 : 1));
            if (!taken) all_fixed(length);
            for (size_t i = 1; taken && i <= length; i++) CHECK(room[i] - room[i] == 0);
        }
    }
}

/* Negative counts, held to the header's words: the lowest zero is where the visit stopped, finite entries above it, the fixed not-a-number below. */
static void stops(void) {
    int negative = 0, below = 0;
    for (int v = 340; v <= 1000; v += 4) {
        for (size_t n = 1; n <= 7; n++) {
            /* the moduli m with v <= m*m/4 <= v + n, twenty of them */
            for (int j = 0; j <= 20; j++) {
                double m = 2 * lichenoar_sqrt(v + (double)n * j / 20) * (1 - 1e-9);
                lichenoar_answer a = guarded(lichenoar_i, j % 2 == 0, v, m * 0.8, m * -0.6, 2 * n);
                size_t stop = 0, zeros = 0;
                CHECK(a.number == 0 && a.backward == 0);
                while (stop < n && bits(room[2 * stop + 1]) == FIXED && bits(room[2 * stop + 2]) == FIXED) stop++;
                for (size_t i = stop; i < n; i++) {
                    CHECK(room[2 * i + 1] - room[2 * i + 1] == 0 && room[2 * i + 2] - room[2 * i + 2] == 0);
                    zeros += room[2 * i + 1] == 0 && room[2 * i + 2] == 0;
                }
                CHECK((size_t)(a.zeros < 0 ? -a.zeros : a.zeros) == zeros);
                if (a.zeros < 0) CHECK(stop < n && room[2 * stop + 1] == 0 && room[2 * stop + 2] == 0);
                if (a.zeros >= 0) CHECK(stop == 0);
                negative += a.zeros < 0;
                below += stop > 0;
            }
        }
    }
    CHECK(negative > 1000 && below > 1000 && below < negative);
    printf("negative counts of I: %d, of them with orders below the stop: %d\n", negative, below);
}

enum { FRAME = 57, MOST = 4096, SIDE = 64 };

typedef struct {
    uint8_t kind, scaling;
    uint32_t n;
    double v, re, im, to_re, to_im;
    uint32_t steps;
} sweep;

static uint8_t bytes[SIDE + FRAME * MOST + SIDE], frames[FRAME * MOST];
static int sweeps;

static uint8_t rubbish(size_t at) { return (uint8_t)(at * 29 + 7); }

/* One part of point j. Each result is stored before the next operation, so that none is joined with another. */
static double part(double first, double last, uint32_t steps, uint32_t j) {
    volatile double difference = last - first, step, way;
    if (steps == 1) return first;
    step = difference / (double)(steps - 1);
    way = step * (double)j;
    return first + way;
}

static double plus_zero(double x) { return x == 0 ? 0 : x; }

static size_t put(size_t at, int digits, uint64_t x) {
    while (digits-- > 0) frames[at++] = (uint8_t)"0123456789ABCDEF"[x >> 4 * digits & 15];
    return at;
}

/* The frames that are expected of a sweep. */
static void frames_of(const sweep *s) {
    size_t at = 0;
    for (uint32_t j = 0; j < s->steps; j++) {
        at = put(put(put(at, 2, s->kind), 2, s->scaling), 4, s->n);
        at = put(at, 16, bits(plus_zero(s->v)));
        at = put(at, 16, bits(part(plus_zero(s->re), plus_zero(s->to_re), s->steps, j)));
        at = put(at, 16, bits(part(s->im, s->to_im, s->steps, j)));
        frames[at++] = '\n';
    }
}

/* One call that lends `length` bytes, at a place that is not always even. Written are the expected frames or nothing, and no other byte. */
static void lent(const sweep *s, uint32_t number, size_t length) {
    size_t needed = number ? 0 : (size_t)FRAME * s->steps, written = needed <= length ? needed : 0, begin = SIDE - sweeps % 16, different = 0;
    for (size_t i = 0; i < sizeof bytes; i++) bytes[i] = rubbish(i);
    lichenoar_sweep_answer a = lichenoar_sweep(s->kind, s->scaling, s->n, s->v, s->re, s->im, s->to_re, s->to_im, s->steps, bytes + begin, length);
    CHECK(a.number == number && a.needed == needed);
    for (size_t i = 0; i < sizeof bytes; i++) different += bytes[i] != (i >= begin && i - begin < written ? frames[i - begin] : rubbish(i));
    CHECK(different == 0);
    sweeps++;
}

/* Room for exactly its frames, a byte less, a frame less, a byte more, all there is, nothing, and nothing at no place. */
static void accepted(sweep s) {
    lichenoar_sweep_answer a = lichenoar_sweep(s.kind, s.scaling, s.n, s.v, s.re, s.im, s.to_re, s.to_im, s.steps, 0, 0);
    size_t needed = (size_t)FRAME * s.steps;
    frames_of(&s);
    CHECK(a.number == 0 && a.needed == needed);
    lent(&s, 0, needed);
    lent(&s, 0, needed - 1);
    lent(&s, 0, needed - FRAME);
    lent(&s, 0, needed + 1);
    lent(&s, 0, FRAME * MOST);
    lent(&s, 0, 0);
}

static void refused(sweep s, uint32_t number) {
    lichenoar_sweep_answer a = lichenoar_sweep(s.kind, s.scaling, s.n, s.v, s.re, s.im, s.to_re, s.to_im, s.steps, 0, 0);
    CHECK(a.number == number && a.needed == 0);
    lent(&s, number, 0);
    lent(&s, number, FRAME * MOST);
}

/* Sets one field of s, and is s. */
#define WITH(s, field, value) ((s).field = (value), (s))

static void accepted_sweeps(double none, double up) {
    const sweep plain = {1, 1, 2, 0.25, 1.5, -0.75, 2.5, 0.75, 3};
    static const uint32_t counts[] = {1, 2, 3, 4, 10, 100, 1000, 4095, 4096};
    sweep s = plain;
    accepted(s);
    /* the bytes themselves, once: re goes 1.5, 2, 2.5 and im -0.75, 0, 0.75 */
    lichenoar_sweep(1, 1, 2, 0.25, 1.5, -0.75, 2.5, 0.75, 3, bytes, sizeof bytes);
    bytes[3 * FRAME] = 0;
    CHECK(strcmp((const char *)bytes, "010100023FD00000000000003FF8000000000000BFE8000000000000\n"
                                      "010100023FD000000000000040000000000000000000000000000000\n"
                                      "010100023FD000000000000040040000000000003FE8000000000000\n") == 0);
    for (size_t i = 0; i < sizeof counts / sizeof *counts; i++) {
        s = (sweep){2, 0, 512, 1000, 0.1, 32768, 0.7, -32768, counts[i]};
        accepted(s);
        s = (sweep){1, 0, 1, value(1), 32768, -0.0, 0, 0, counts[i]};
        accepted(s);
    }
    /* of one step the last pair is not looked at, and the first keeps its bits, but for a real -0 */
    s.steps = 1;
    accepted(WITH(s, to_re, none));
    accepted(WITH(s, to_im, -up));
    accepted(WITH(s, to_re, -1));
    accepted(WITH(s, to_im, 1e300));
    s = (sweep){1, 0, 1, -0.0, -0.0, -0.0, -1, none, 1};
    accepted(s);
    lichenoar_sweep(1, 0, 1, -0.0, -0.0, -0.0, -1, none, 1, bytes, FRAME);
    bytes[FRAME] = 0;
    CHECK(strcmp((const char *)bytes, "01000001000000000000000000000000000000008000000000000000\n") == 0);
    /* the last point past the last pair, and below 0 */
    s = (sweep){1, 0, 1, 0, 0.3, 0.3, 0.9, 0.9, 3};
    accepted(s);
    CHECK(part(0.3, 0.9, 3, 2) > 0.9);
    s = (sweep){1, 0, 1, 0, 3.1, 0, 0, 0, 4};
    accepted(s);
    CHECK(part(3.1, 0, 4, 3) < 0);
}

/* Every fault at once, and each mended in turn: the numbers come in the order of the checks. */
static void refused_in_order(double none) {
    sweep s = {3, 2, 513, none, -1, 32769, -2, -32769, 4097};
    refused(s, 13);
    refused(WITH(s, steps, 0), 13);
    refused(WITH(s, steps, 2), 9);
    refused(WITH(s, kind, 1), 9);
    refused(WITH(s, scaling, 1), 1);
    refused(WITH(s, n, 512), 2);
    refused(WITH(s, v, -1), 3);
    refused(WITH(s, v, 1000), 11);
    refused(WITH(s, re, 1), 11);
    refused(WITH(s, to_re, 2), 12);
    refused(WITH(s, im, 32768), 12);
    accepted(WITH(s, to_im, -32768));
}

static void refused_sweeps(double none, double up) {
    const sweep plain = {1, 1, 2, 0.25, 1.5, -0.75, 2.5, 0.75, 3};
    static const uint32_t steps[] = {0, 4097, 65536, 65537, 75350304, 0x80000001u, 0xFFFFFFFFu}, orders[] = {0, 513, 65536, 65537, 0x80000001u, 0xFFFFFFFFu};
    const double infinite[] = {none, -none, up, -up}, left[] = {-1, -value(1), -32769}, large[] = {32769, value(0x40E0000000000001u), 1e300};
    sweep s = plain;
    for (size_t i = 0; i < sizeof steps / sizeof *steps; i++) refused(WITH(s, steps, steps[i]), 13);
    s = plain;
    for (size_t i = 0; i < sizeof orders / sizeof *orders; i++) refused(WITH(s, n, orders[i]), 1);
    for (unsigned byte = 0; byte < 256; byte++) {
        sweep k = plain, c = plain;
        k.kind = c.scaling = (uint8_t)byte;
        frames_of(&k);
        lent(&k, byte == 1 || byte == 2 ? 0 : 9, FRAME * 3);
        frames_of(&c);
        lent(&c, byte < 2 ? 0 : 9, FRAME * 3);
    }
    for (size_t i = 0; i < 4; i++) {
        s = plain, refused(WITH(s, v, infinite[i]), 2);
        s = plain, refused(WITH(s, re, infinite[i]), 2);
        s = plain, refused(WITH(s, im, infinite[i]), 2);
        s = plain, refused(WITH(s, to_re, infinite[i]), 2);
        s = plain, refused(WITH(s, to_im, infinite[i]), 2);
    }
    s = plain, refused(WITH(s, v, -value(1)), 3);
    s = plain, refused(WITH(s, v, value(0x408F400000000001u)), 3);
    for (size_t i = 0; i < 3; i++) {
        s = plain, refused(WITH(s, re, left[i]), 11);
        s = plain, refused(WITH(s, to_re, left[i]), 11);
        s = plain, refused(WITH(s, re, large[i]), 12);
        s = plain, refused(WITH(s, to_re, large[i]), 12);
        s = plain, refused(WITH(s, im, large[i]), 12);
        s = plain, refused(WITH(s, im, -large[i]), 12);
        s = plain, refused(WITH(s, to_im, large[i]), 12);
        s = plain, refused(WITH(s, to_im, -large[i]), 12);
    }
}

static void swept(void) {
    double up = value(0x7FF0000000000000u), none = value(FIXED);
    accepted_sweeps(none, up);
    refused_in_order(none);
    refused_sweeps(none, up);
    printf("sweeps, by every room and every refusal: %d calls\n", sweeps);
}

enum { CELLS = 58, RESERVED = 32, LONGEST = 33, RUNGS = 53, BACKWARD = 54, ZEROS = 55, LINES = 56, UNREADABLE = 57, HEAD = 18, PAIR = 32 };
#define LARGEST 0xFFFFFFFFFFFFFFFFu
#define MOST_LINES 0xFFFFFFFFu

/* A page by its cells, in the order that the header has. */
typedef struct {
    uint64_t cell[CELLS];
} cells;

static unsigned long counted;

static void plus(cells *c, unsigned at, uint64_t by) { c->cell[at] = c->cell[at] > LARGEST - by ? LARGEST : c->cell[at] + by; }

static int same(const cells *a, const cells *b) {
    int equal = 1;
    for (int i = 0; i < CELLS; i++) equal &= a->cell[i] == b->cell[i];
    return equal;
}

/* A line is made over the frames, with digits behind it. */
static size_t line_of(unsigned number, unsigned zeros, unsigned sum, unsigned rungs, unsigned backward) {
    for (size_t i = HEAD; i < HEAD + 514 * PAIR; i++) frames[i] = (uint8_t)"0123456789ABCDEF"[i % 16];
    return put(put(put(put(put(0, 2, number), 4, zeros), 4, sum), 4, rungs), 4, backward);
}

/* The value of these digits of the line, 65536 where one is none. */
static unsigned value_at(size_t at, int digits) {
    unsigned x = 0, d;
    for (; digits > 0; digits--, at++) {
        for (d = 0; d < 16 && (uint8_t)"0123456789ABCDEF"[d] != frames[at]; d++) continue;
        if (d == 16) return 65536;
        x = 16 * x + d;
    }
    return x;
}

/* What the line is to add to a page. */
static void expect(cells *c, size_t length) {
    unsigned number = value_at(0, 2), zeros = value_at(2, 4), sum = value_at(6, 4), rungs = value_at(10, 4), backward = value_at(14, 4);
    size_t more = length < HEAD ? 1 : length - HEAD;
    int bad = number == 14 || number > 15 || zeros > 65535 || sum > 19 || rungs > 65535 || backward > 65535;
    bad |= number == 0 ? length < HEAD || more == 0 || more % PAIR != 0 || more / PAIR > 512 : more != 0;
    for (size_t i = HEAD; !bad && i < length; i++) bad = value_at(i, 1) > 15;
    plus(c, LINES, 1);
    plus(c, bad ? UNREADABLE : number, 1);
    if (bad || number != 0) return;
    plus(c, LONGEST + sum, 1);
    plus(c, RUNGS, rungs);
    plus(c, BACKWARD, backward);
    plus(c, ZEROS, zeros < 32768 ? zeros : 65536 - zeros);
}

/* A page that is lent, between cells that are not. */
static struct {
    cells before;
    lichenoar_page page;
    cells behind;
} around;

static void lend(const cells *c) {
    for (unsigned i = 0; i < CELLS; i++) around.before.cell[i] = around.behind.cell[i] = GUARD + i;
    memcpy(&around.page, c, sizeof *c);
}

/* Whether the page has these cells now, and what lies around it is as it was. */
static int left(const cells *want) {
    cells got;
    int guarded = 1;
    memcpy(&got, &around.page, sizeof got);
    for (unsigned i = 0; i < CELLS; i++) guarded &= around.before.cell[i] == GUARD + i && around.behind.cell[i] == GUARD + i;
    return guarded && same(&got, want);
}

/* The line counted into a page of these cells, which are then the new ones. Behind it stands a digit, or a newline, which has no part in it. */
static void count(cells *c, size_t length) {
    uint32_t number = c->cell[LINES] >= MOST_LINES ? 15 : 0;
    uint8_t behind = frames[length];
    lend(c);
    if (number == 0) expect(c, length);
    if (counted++ % 2) frames[length] = '\n';
    CHECK(lichenoar_page_line(&around.page, frames, length) == number);
    CHECK(left(c));
    frames[length] = behind;
}

/* Pages of these cells joined: the first are then the new ones, and the others stay. */
static void join(cells *into, const cells *from) {
    lichenoar_page other;
    cells stays;
    uint32_t number = into->cell[LINES] > MOST_LINES || from->cell[LINES] > MOST_LINES - into->cell[LINES] ? 15 : 0;
    lend(into);
    memcpy(&other, from, sizeof other);
    for (unsigned i = 0; number == 0 && i < CELLS; i++) plus(into, i, from->cell[i]);
    CHECK(lichenoar_page_join(&around.page, &other) == number);
    memcpy(&stays, &other, sizeof stays);
    CHECK(left(into) && same(&stays, from));
}

/* The answers of KNOWN, as the frame program writes them; and what they come to, by their records. */
static cells night, records;

static void answered(const lichenoar_answer *a, size_t length) {
    size_t at = line_of(a->number, (unsigned)a->zeros, a->longest_sum, a->rungs, a->backward);
    for (size_t i = 1; a->number == 0 && i <= length; i++) at = put(at, 16, bits(room[i]));
    count(&night, at);
    records.cell[a->number]++;
    records.cell[LINES]++;
    if (a->number != 0) return;
    records.cell[LONGEST + a->longest_sum]++;
    records.cell[RUNGS] += a->rungs;
    records.cell[BACKWARD] += a->backward;
    records.cell[ZEROS] += (unsigned)(a->zeros < 0 ? -a->zeros : a->zeros);
}

static void known_page(void) {
    uint64_t read = 0, sums = 0;
    CHECK(same(&night, &records) && night.cell[0] > 20 && night.cell[RUNGS] > 0 && night.cell[BACKWARD] > 0 && night.cell[ZEROS] > 0);
    for (int i = 0; i < RESERVED; i++) read += night.cell[i];
    for (int i = LONGEST; i < RUNGS; i++) sums += night.cell[i];
    CHECK(read == night.cell[LINES] && sums == night.cell[0]);
}

/* Every byte of an answered and of a refused line changed into every other. */
static void damaged(cells *c) {
    for (unsigned number = 0; number <= 4; number += 4) {
        size_t length = line_of(number, 0xFFFD, 12, 345, 67) + (number == 0 ? PAIR : 0);
        for (size_t at = 0; at < length; at++) {
            uint8_t kept = frames[at];
            for (unsigned byte = 0; byte < 256; byte++) {
                frames[at] = (uint8_t)byte;
                count(c, length);
            }
            frames[at] = kept;
        }
    }
}

/* Every number; longest sums, zeros and other counts, and lengths, every one where it can matter; an empty line at no place. */
static void every_line(cells *c) {
    for (unsigned x = 0; x < 256; x++) {
        size_t length = line_of(x, 1, 2, 3, 4);
        count(c, length);
        count(c, length + PAIR);
    }
    for (unsigned x = 0; x < 65536; x += x < 300 || (x > 32700 && x < 32800) || x > 65500 ? 1 : 31) {
        count(c, line_of(0, 0, x, 0, 0) + PAIR);
        count(c, line_of(0, x, 0, 65535 - x, x) + PAIR);
        count(c, line_of(9, x, x % 21, x, x));
    }
    line_of(0, 0, 0, 0, 0);
    for (size_t length = 0; length <= HEAD + 513 * PAIR; length += length < 400 || length > HEAD + 500 * PAIR ? 1 : 31) count(c, length);
    lend(c);
    plus(c, LINES, 1);
    plus(c, UNREADABLE, 1);
    CHECK(lichenoar_page_line(&around.page, 0, 0) == 0);
    CHECK(left(c));
    CHECK(c->cell[0] > 1000 && c->cell[9] > 100 && c->cell[14] == 0 && c->cell[15] > 0 && c->cell[RESERVED] == 0 && c->cell[UNREADABLE] > 1000);
}

/* A list in three parts, joined in several orders: each gives the page of the list. */
static void joined(void) {
    static const cells none;
    cells thirds[3] = {none, none, none}, whole = none, a, b;
    for (unsigned i = 0; i < 3000; i++) {
        size_t length = line_of(i % 5 ? 0 : i % 17, i * 7, i % 21, i * 11, i * 13) + (i % 5 ? PAIR * (i % 4) : 0);
        count(&thirds[i * i % 3 + i % 2], length);
        count(&whole, length);
    }
    a = thirds[0], join(&a, &thirds[1]), join(&a, &thirds[2]);
    CHECK(same(&a, &whole));
    a = thirds[2], join(&a, &thirds[1]), join(&a, &thirds[0]);
    CHECK(same(&a, &whole));
    b = thirds[1], join(&b, &thirds[2]), a = thirds[0], join(&a, &b);
    CHECK(same(&a, &whole));
    a = none, join(&a, &whole), join(&a, &none);
    CHECK(same(&a, &whole));
}

/* Pages near their limit and of any bits: 15 goes by the lines alone, and a cell that is full stays at the largest value. */
static void full(void) {
    static const uint64_t lines[] = {0, 1, MOST_LINES - 1, MOST_LINES, 0x100000000u, LARGEST - MOST_LINES + 1, LARGEST - 1, LARGEST};
    static const uint64_t others[] = {0, 7, LARGEST - 400, LARGEST - 1, LARGEST};
    size_t length = line_of(0, 32768, 19, 345, 67) + PAIR;
    for (unsigned i = 0; i < 8 * 5; i++) {
        cells c, into, from;
        for (unsigned at = 0; at < CELLS; at++) c.cell[at] = others[i / 8];
        c.cell[LINES] = lines[i % 8];
        for (unsigned j = 0; j < 8 * 5; j++) {
            for (unsigned at = 0; at < CELLS; at++) from.cell[at] = others[j / 8] ^ at;
            from.cell[LINES] = lines[j % 8];
            into = c, join(&into, &from);
        }
        count(&c, length);
        count(&c, length - 1);
        count(&c, 0);
        count(&c, length);
    }
}

static void pages(void) {
    static cells c;
    known_page();
    damaged(&c);
    every_line(&c);
    joined();
    full();
    printf("pages, cell by cell: %lu lines counted\n", counted);
}

#define WORDS(x) #x
#define SHOWN(x) WORDS(x)

static void version(void) {
    CHECK(strcmp(LICHENOAR_VERSION, SHOWN(LICHENOAR_VERSION_MAJOR) "." SHOWN(LICHENOAR_VERSION_MINOR) "." SHOWN(LICHENOAR_VERSION_PATCH)) == 0);
}

static void routines(void) {
    double up = value(0x7FF0000000000000u), none = value(FIXED);
    CHECK(lichenoar_sqrt(4) == 2 && bits(lichenoar_sqrt(value(1))) == 0x1E60000000000000u);
    CHECK(lichenoar_hypot(3, 4) == 5 && lichenoar_exp(0) == 1 && lichenoar_ln(1) == 0);
    CHECK(lichenoar_sin(0) == 0 && lichenoar_cos(0) == 1 && lichenoar_sinh(0) == 0 && lichenoar_cosh(0) == 1);
    CHECK(lichenoar_sin_pi(7) == 0 && lichenoar_cos_pi(0.5) == 0 && lichenoar_cos_pi(1) == -1);
    CHECK(lichenoar_round(2.5) == 3 && lichenoar_round(-2.5) == -3);
    CHECK(bits(lichenoar_angle(1, 0)) == 0x3FF921FB54442D18u && lichenoar_angle(0, 1) == 0);
    CHECK(bits(lichenoar_sqrt(-1)) == FIXED && bits(lichenoar_exp(value(0xFFF8000000000001u))) == FIXED);
    CHECK(bits(lichenoar_sqrt(-0.0)) == bits(-0.0) && lichenoar_hypot(-up, none) == up && lichenoar_hypot(none, up) == up);
    CHECK(bits(lichenoar_hypot(none, 1)) == FIXED && lichenoar_exp(up) == up && lichenoar_exp(-up) == 0);
    CHECK(lichenoar_ln(0) == -up && lichenoar_ln(-0.0) == -up && bits(lichenoar_ln(-1)) == FIXED && lichenoar_ln(up) == up);
    CHECK(bits(lichenoar_sin(up)) == FIXED && bits(lichenoar_cos(-up)) == FIXED);
    CHECK(bits(lichenoar_sin_pi(up)) == FIXED && bits(lichenoar_cos_pi(-up)) == FIXED && lichenoar_cos_pi(-0.5) == 0);
    CHECK(lichenoar_sinh(-up) == -up && lichenoar_cosh(-up) == up && lichenoar_round(-up) == -up);
    CHECK(bits(lichenoar_angle(0.0, -0.0)) == 0x400921FB54442D18u && bits(lichenoar_angle(-0.0, -0.0)) == 0xC00921FB54442D18u);
}

int main(int argc, char **argv) {
    FILE *f = argc == 2 ? fopen(argv[1], "r") : 0;
    if (!f) {
        printf("usage: test KNOWN\n");
        return 2;
    }
    known(f);
    fclose(f);
    line = 0;
    lengths();
    stops();
    swept();
    pages();
    routines();
    version();
    printf("C interface: %s\n", failed ? "DIFFERENT" : "as stated");
    return failed;
}
