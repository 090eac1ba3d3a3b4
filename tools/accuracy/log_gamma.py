#!/usr/bin/env python3
"""log_gamma.py LINES: reads the lines of `accuracy log_gamma` with the two columns of log_gamma_644.c, works out the true values with mpmath, and writes the tables of
log-gamma into docs/ACCURACY.md, between its two marks. The last line that it prints has the largest error of ours over max(1, |true|)."""
import struct
import sys

from mpmath import loggamma, mp, mpf

from tables import figure, spread

mp.prec = 256
DOCUMENT = "docs/ACCURACY.md"
BEGIN, END = "<!-- tables of log_gamma.py begin -->\n", "<!-- tables of log_gamma.py end -->\n"
WORDS = {
    "subnormal": "below 2^-1022",
    "2^-1022_to_2^-10": "2^-1022 to 2^-10",
    "2^-10_to_15/16": "2^-10 to 15/16",
    "beside_1": "within 1/16 of 1",
    "17/16_to_31/16": "17/16 to 31/16",
    "beside_2": "within 1/16 of 2",
    "33/16_to_7": "33/16 to 7",
    "7_to_100": "7 to 100",
    "whole_1_to_100": "whole, 1 to 100",
    "100_to_2^20": "100 to 2^20",
    "2^20_to_2^1014": "2^20 to 2^1014",
}
SIDES = ("ours", "text", "644")


def number(word):
    return struct.unpack(">d", bytes.fromhex(word))[0]


def measured(fields):
    """For each side that answered: its place, its error over |true| and over max(1, |true|), in units of 2^-52. A true value of 0 has no first."""
    true = loggamma(mpf(number(fields[1])))
    for side, (answered, word) in enumerate(((fields[2] == "0", fields[3]), (fields[4] == "1", fields[5]), (fields[6] == "1", fields[7]))):
        if answered:
            off = abs(mpf(number(word)) - true) * 2**52
            yield side, float(off / abs(true)) if true else None, float(off / max(1, abs(true)))


def read(path):
    """Region by region: the number of arguments, for each side the two lists of errors, and the worst argument of each kind of ours."""
    regions = {}
    with open(path) as lines:
        for fields in map(str.split, lines):
            r = regions.setdefault(fields[0], {"asked": 0, "errors": [([], []) for _ in SIDES], "worst": [(-1.0, ""), (-1.0, "")]})
            r["asked"] += 1
            if r["asked"] == 1:
                print("log_gamma.py:", WORDS[fields[0]], file=sys.stderr)
            for side, *both in measured(fields):
                for kind, error in enumerate(both):
                    if error is not None:
                        r["errors"][side][kind].append(error)
                        if side == 0:
                            r["worst"][kind] = max(r["worst"][kind], (error, fields[1]))
    for r in regions.values():
        for lists in r["errors"]:
            for errors in lists:
                errors.sort()
    return regions


def page(regions):
    yield "| arguments | answered | " + " | ".join(f"{side}, of \\|true\\| | {side}, of max(1, \\|true\\|)" for side in SIDES) + " |"
    yield "|" + "---|" * 8
    for key, r in regions.items():
        yield f"| {WORDS[key]} | {len(r['errors'][0][1]):,} of {r['asked']:,} | " + " | ".join(spread(errors) for lists in r["errors"] for errors in lists) + " |"
    yield ""
    yield "| arguments | ours, worst of \\|true\\| | at | ours, worst of max(1, \\|true\\|) | at |"
    yield "|" + "---|" * 5
    for key, r in regions.items():
        yield f"| {WORDS[key]} | " + " | ".join(f"{figure(error)} | {word}" for error, word in r["worst"]) + " |"


def main():
    regions = read(sys.argv[1])
    before, rest = open(DOCUMENT).read().split(BEGIN)
    after = rest.split(END)[1]
    open(DOCUMENT, "w").write(before + BEGIN + "\n".join(page(regions)) + "\n" + END + after)
    print(f"log_gamma.py: {sum(r['asked'] for r in regions.values())} arguments; ours is within {max(r['worst'][1] for r in regions.values())[0]:.1f} units of 2^-52 of max(1, |true|)")


if __name__ == "__main__":
    main()
