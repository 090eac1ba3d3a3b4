/* The morning page by another road than the proved one: what lichenoar_page_line and lichenoar_page_join must give. A page is a row of 58 cells, any 64 bits in
   each; a sum that does not fit a cell is its largest value. Used by capi.c; broken.py breaks it. */
#ifndef LICHENOAR_EXPECTED_PAGE_H
#define LICHENOAR_EXPECTED_PAGE_H

#include <stddef.h>
#include <stdint.h>

/* where the parts of a page begin */
enum { NUMBERS = 0, RESERVED = 32, LONGEST = 33, RUNGS = 53, BACKWARD = 54, ZEROS = 55, LINES = 56, UNREADABLE = 57, CELLS = 58 };

#define EXPECTED_MOST_LINES 4294967295u

typedef struct {
    uint64_t cell[CELLS];
} expected_page;

static inline void expected_add(uint64_t *cell, uint64_t more) {
    const uint64_t room = ~*cell;
    *cell += more < room ? more : room;
}

/* The value of a digit, 16 for any other byte. */
static inline uint32_t digit_value(uint8_t byte) { return byte >= '0' && byte <= '9' ? byte - '0' : byte >= 'A' && byte <= 'F' ? byte - 'A' + 10 : 16; }

/* Reads the five fields of an answer line, given without its newline: number, zeros, longest sum, rungs, backward steps; 0 where the line is unreadable. */
static inline int expected_read(const uint8_t *line, size_t length, uint32_t *fields) {
    static const int ends[5] = {2, 6, 10, 14, 18};
    size_t at = 0;
    if (length < 18) return 0;
    for (int i = 0; i < 5; i++)
        for (fields[i] = 0; at < (size_t)ends[i]; at++) {
            if (digit_value(line[at]) > 15) return 0;
            fields[i] = 16 * fields[i] + digit_value(line[at]);
        }
    if (fields[0] == 14 || fields[0] > 15 || fields[2] >= 20) return 0;
    if (fields[0] != 0) return length == 18;
    for (; at < length; at++)
        if (digit_value(line[at]) > 15) return 0;
    for (size_t pairs = 1; pairs <= 512; pairs++)
        if (length == 18 + 32 * pairs) return 1;
    return 0;
}

/* What the functions must return, and make of the page. */
static inline uint32_t expected_line(expected_page *page, const uint8_t *line, size_t length) {
    uint32_t fields[5];
    if (page->cell[LINES] >= EXPECTED_MOST_LINES) return 15;
    expected_add(&page->cell[LINES], 1);
    if (!expected_read(line, length, fields)) {
        expected_add(&page->cell[UNREADABLE], 1);
        return 0;
    }
    expected_add(&page->cell[NUMBERS + fields[0]], 1);
    if (fields[0] != 0) return 0;
    expected_add(&page->cell[ZEROS], fields[1] < 0x8000 ? fields[1] : 0x10000 - fields[1]);
    expected_add(&page->cell[LONGEST + fields[2]], 1);
    expected_add(&page->cell[RUNGS], fields[3]);
    expected_add(&page->cell[BACKWARD], fields[4]);
    return 0;
}

static inline uint32_t expected_join(expected_page *into, const expected_page *from) {
    const uint64_t lines = into->cell[LINES], more = from->cell[LINES];
    if (lines > EXPECTED_MOST_LINES || more > EXPECTED_MOST_LINES || lines + more > EXPECTED_MOST_LINES) return 15;
    for (int i = 0; i < CELLS; i++) expected_add(&into->cell[i], from->cell[i]);
    return 0;
}

#endif
