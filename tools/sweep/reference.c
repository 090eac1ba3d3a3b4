/* The sweep program once more, in C, by expected.h: requests on standard input, 92 upper-case hexadecimal digits a line; the frames of those accepted on
   standard output; `request K: refusal N` for the others on standard error. Ends with 1 where something was refused, 2 where a read or write failed, else 0.
   Built by run.sh and times.py: cc -O2 -ffp-contract=off. A sweep is one buffer and one write. */
#include "expected.h"
#include <errno.h>
#include <float.h>
#include <stdio.h>
#include <stdlib.h>
#include <unistd.h>

_Static_assert(FLT_EVAL_METHOD == 0 && FLT_RADIX == 2 && DBL_MANT_DIG == 53 && DBL_MAX_EXP == 1024 && DBL_HAS_SUBNORM == 1, "double is IEEE binary64");

static uint8_t lines[LINE_BYTES * MOST_STEPS];
static unsigned long requests;
static int refused;

static void lost(const char *what) {
    perror(what);
    exit(2);
}

static void answer(const uint8_t *line, size_t length) {
    expected_request request;
    expected_outcome outcome = {9, 0};
    requests++;
    if (expected_read(line, length, &request)) outcome = expected_sweep(&request, lines, sizeof lines);
    if (outcome.number) {
        refused = 1;
        if (fprintf(stderr, "request %lu: refusal %u\n", requests, (unsigned)outcome.number) < 0) exit(2);
    }
    for (size_t done = 0; done < outcome.needed;) {
        ssize_t wrote = write(1, lines + done, outcome.needed - done);
        if (wrote < 0 && errno != EINTR) lost("standard output");
        if (wrote > 0) done += (size_t)wrote;
    }
}

int main(void) {
    static uint8_t input[1 << 16];
    /* what is held of a line whose end is not read yet: a byte more than a request has shows that it is none */
    uint8_t held[REQUEST_DIGITS + 1];
    size_t kept = 0;
    ssize_t got;
    setvbuf(stderr, NULL, _IOFBF, 1 << 16);
    while ((got = read(0, input, sizeof input)) != 0) {
        if (got < 0 && errno == EINTR) continue;
        if (got < 0) lost("standard input");
        const uint8_t *at = input, *end = input + got, *newline;
        for (; (newline = memchr(at, '\n', (size_t)(end - at))) != NULL; at = newline + 1) {
            size_t length = (size_t)(newline - at);
            if (kept) {
                size_t more = length < sizeof held - kept ? length : sizeof held - kept;
                memcpy(held + kept, at, more);
                answer(held, kept + more);
                kept = 0;
            } else {
                answer(at, length);
            }
        }
        size_t rest = (size_t)(end - at), more = rest < sizeof held - kept ? rest : sizeof held - kept;
        memcpy(held + kept, at, more);
        kept += more;
    }
    if (kept) answer(held, kept);
    return refused;
}
