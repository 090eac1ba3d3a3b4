/* lichenoar_sweep of libcapi.a against expected.h. capi REQUESTS COUNT SEED: every request of the file, then COUNT drawn here, whose kind and scaling are any
   byte and whose n and steps any 32 bits. Each is called with room for exactly its lines, for a byte less, for nothing, and for more: number, needed, lines,
   and every byte that must stay are compared. A failure is told and the program ends with 1; the last line says how many calls there were. */
#include "expected.h"
#include "splitmix.h"
#include <stdio.h>

typedef struct {
    uint32_t number, needed;
} Sweep;
_Static_assert(sizeof(Sweep) == 8 && _Alignof(Sweep) == 4, "the record of a sweep");

Sweep lichenoar_sweep(uint8_t kind, uint8_t scaling, uint32_t n, double v, double first_re, double first_im, double last_re, double last_im, uint32_t steps,
                      uint8_t *out, size_t out_len);
int memcmp(const void *, const void *, size_t);

/* what lies around the bytes that are lent, and how much more than its lines a call is lent at most */
enum { GUARD = 64, MORE = 700, ALL = LINE_BYTES * MOST_STEPS };

static uint8_t room[GUARD + ALL + MORE + GUARD], rubbish[sizeof room], wanted[ALL];
static unsigned long calls, accepted, refused, wrong;

static void show(const expected_request *r, const char *what, size_t length, Sweep got, expected_outcome outcome) {
    if (wrong++ >= 20) return;
    printf("capi.c: %s: kind %u scaling %u n %u v %a first %a %a last %a %a steps %u, ", what, r->kind, r->scaling, r->n, r->v, r->first_re, r->first_im,
           r->last_re, r->last_im, r->steps);
    printf("%lu bytes lent: number %u needed %u, expected %u and %u\n", (unsigned long)length, got.number, got.needed, outcome.number, outcome.needed);
}

/* One call that is lent `length` bytes, at a place that moves; the bytes looked at end GUARD bytes behind them. */
static void call(const expected_request *r, size_t length, expected_outcome outcome) {
    const size_t shift = calls % 16, begin = GUARD - shift, written = outcome.needed <= length ? outcome.needed : 0;
    const size_t extent = begin + length + GUARD;
    memcpy(room, rubbish, extent);
    Sweep got = lichenoar_sweep(r->kind, r->scaling, r->n, r->v, r->first_re, r->first_im, r->last_re, r->last_im, r->steps, room + begin, length);
    calls++;
    if (got.number != outcome.number || got.needed != outcome.needed) show(r, "the record", length, got, outcome);
    if (memcmp(room + begin, wanted, written)) show(r, "the lines", length, got, outcome);
    if (memcmp(room, rubbish, begin)) show(r, "bytes before", length, got, outcome);
    if (memcmp(room + begin + written, rubbish + begin + written, extent - begin - written)) show(r, "bytes that must stay", length, got, outcome);
}

/* No bytes lent, at no place. */
static void call_with_none(const expected_request *r, expected_outcome outcome) {
    Sweep got = lichenoar_sweep(r->kind, r->scaling, r->n, r->v, r->first_re, r->first_im, r->last_re, r->last_im, r->steps, 0, 0);
    calls++;
    if (got.number != outcome.number || got.needed != outcome.needed) show(r, "the record, no bytes", 0, got, outcome);
}

static void every_room(const expected_request *r, uint64_t drawn) {
    const expected_outcome outcome = expected_sweep(r, wanted, sizeof wanted);
    call_with_none(r, outcome);
    call(r, 0, outcome);
    if (outcome.number) {
        refused++;
        call(r, LINE_BYTES, outcome);
        /* what would hold the lines if it were not refused */
        call(r, drawn % 64 ? LINE_BYTES * (r->steps % 64) + MORE % (drawn % MORE + 1) : ALL, outcome);
        return;
    }
    accepted++;
    call(r, outcome.needed, outcome);
    call(r, outcome.needed - 1, outcome);
    call(r, outcome.needed - LINE_BYTES, outcome);
    call(r, outcome.needed + 1, outcome);
    call(r, outcome.needed + drawn % (MORE + 1), outcome);
    call(r, (drawn >> 32) % outcome.needed, outcome);
}

static uint32_t pick(uint64_t *state, const uint32_t *of, size_t length) { return of[splitmix64(state) % length]; }
#define PICK(state, ...) pick(state, (const uint32_t[]){__VA_ARGS__}, sizeof((const uint32_t[]){__VA_ARGS__}) / sizeof(uint32_t))

/* Mostly a part or an order that is accepted. */
static double number(uint64_t *state, double top, int may_be_negative) {
    static const uint64_t odd[] = {0x8000000000000000u, 0x7FF0000000000000u, 0xFFF0000000000000u, 0x7FF8000000000000u, 0x7FF0000000000001u,
                                   0xFFFFFFFFFFFFFFFFu, 0x8000000000000001u, 0x40E0000000000001u, 0xC0E0000000000001u, 0x408F400000000001u,
                                   0xBFF0000000000000u, 0x0000000000000001u, 0x40E0000000000000u, 0x408F400000000000u};
    uint64_t drawn = splitmix64(state);
    if (drawn % 24 == 0) return double_of(odd[(drawn >> 32) % (sizeof odd / sizeof *odd)]);
    double x = top * 0x1p-53 * (double)(drawn >> 11);
    return may_be_negative && splitmix64(state) % 2 ? -x : x;
}

/* Any byte for kind and scaling, any 32 bits for n and steps: those that are good when they are cut to 8, 12, 16 or 31 bits among them, and steps whose 57-fold
   passes 2^32. */
static expected_request drawn_request(uint64_t *state) {
    expected_request r;
    uint64_t which = splitmix64(state);
    r.kind = which % 3 ? (uint8_t)(1 + (which >> 8) % 2) : (uint8_t)(which >> 8);
    r.scaling = which >> 16 & 1 ? (uint8_t)(which >> 24 & 1) : (uint8_t)(which >> 24);
    if (which >> 17 & 1) r.scaling &= 1;
    r.n = PICK(state, 0, 1, 2, 511, 512, 513, 0x10000, 0x10001, 0x10200, 0x10201, 0x20001, 0xFFFF, 0x1000001, 0x80000001, 0x80000200, 0xFFFFFFFF);
    if (which >> 18 & 3) r.n = 1 + (uint32_t)(which >> 32) % 512;
    r.steps = PICK(state, 0, 1, 2, 3, 17, 4095, 4096, 4097, 0xFFFF, 0x10000, 0x10001, 0x10002, 0x11000, 0x1000001, 0x80000001, 0x80001000, 0xFFFFFFFF, 75350303,
                   75350304, 75350305, 150700608);
    if (which >> 20 & 3) r.steps = 1 + (uint32_t)(which >> 40) % (which >> 22 & 7 ? 40 : 4096);
    if ((which >> 26 & 63) == 0) r.steps = (uint32_t)splitmix64(state);
    r.v = number(state, 1000.0, 0);
    r.first_re = number(state, 32768.0, 0);
    r.first_im = number(state, 32768.0, 1);
    r.last_re = number(state, 32768.0, 0);
    r.last_im = number(state, 32768.0, 1);
    return r;
}

int main(int words, char **word) {
    char line[REQUEST_DIGITS + 8];
    unsigned long count, seed, lines = 0;
    uint64_t state;
    expected_request request;
    FILE *file;
    if (words != 4 || sscanf(word[2], "%lu", &count) != 1 || sscanf(word[3], "%lu", &seed) != 1 || !(file = fopen(word[1], "r"))) {
        printf("capi REQUESTS COUNT SEED\n");
        return 2;
    }
    state = seed;
    for (size_t i = 0; i < sizeof rubbish; i++) rubbish[i] = (uint8_t)splitmix64(&state);
    while (fgets(line, sizeof line, file)) {
        lines++;
        if (line[REQUEST_DIGITS] != '\n' || !expected_read((const uint8_t *)line, REQUEST_DIGITS, &request)) {
            printf("capi.c: line %lu is malformed\n", lines);
            return 2;
        }
        every_room(&request, splitmix64(&state));
    }
    fclose(file);
    for (unsigned long i = 0; i < count; i++) {
        request = drawn_request(&state);
        every_room(&request, splitmix64(&state));
    }
    printf("capi.c: %lu requests and %lu drawn, %lu accepted and %lu refused: %lu calls, %lu not as expected\n", lines, count, accepted, refused, calls, wrong);
    return wrong != 0;
}
