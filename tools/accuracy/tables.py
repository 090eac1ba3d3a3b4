#!/usr/bin/env python3
"""tables.py ERRORS FAR: reads what truth.c printed and writes the tables of docs/ACCURACY.md, between its two marks, and the pictures of docs/plots.
The thresholds of its last table are those of the pictures (picture.py)."""
import math
import sys
from collections import defaultdict

from picture import FAR_OFF, IN_A_THOUSAND, number, write_pictures

DOCUMENT = "docs/ACCURACY.md"
FEWEST = 100  # entries that a median and a 99% are given for
BEGIN, END = "<!-- tables of tools/accuracy begin -->\n", "<!-- tables of tools/accuracy end -->\n"

# the branches and their words, in the order of the document
BRANCHES = {
    "k_temme": "Temme, 0.001 < \\|z\\| ≤ 2",
    "k_miller": "Miller, 2 < \\|z\\| ≤ 28.67",
    "k_far_up": "far, \\|z\\| > 28.67, im ≥ 0",
    "k_far_down": "far, \\|z\\| > 28.67, im < 0",
    "k_real_axis": "real axis, 0.001 to 660",
    "k_imaginary_axis": "imaginary axis, 0.001 to 660",
    "k_half_orders": "half orders, \\|z\\| 0.001 to 660",
    "i": "\\|z\\| to 2√(v+n)",
    "i_near_underflow": "leading term e^-640 to e^-701, order 3 to 352",
}
WORDS = {
    "k_climb_re_665-701_order_0-50": "climb, unscaled, re 665 to 701, order 0 to 50",
    "k_climb_re_701-1070_order_50-1000": "climb, unscaled, re 701 to 1,070, order 50 to 1,000",
    "k_climb_re_1070-1101_order_890-1000": "climb, unscaled, re 1,070 to 1,101, order 890 to 1,000",
    "k_climb_re_1102-1200_order_50-1000": "climb, unscaled, re 1,102 to 1,200, order 50 to 1,000",
    "k_tiny_z_2^-1000_to_2^-10": "parts 2^-1000 to 2^-10, order 0 to 3",
    "k_tiny_z_below_2^-1000": "parts below 2^-1000, order 0 to 1, n = 1",
    "k_orders_beside_whole_numbers": "orders within 1,000 patterns of 1 to 20, \\|z\\| to 28",
    "k_orders_2^-1022_to_2^-10": "orders 2^-1022 to 2^-10, \\|z\\| to 28",
    "k_orders_subnormal": "orders below 2^-1022, \\|z\\| to 28",
    "k_long_lists": "n = 512, scaled, \\|z\\| 1,700 to 3,000, order 0 to 1,000",
    "i_imaginary_axis_0-50": "imaginary axis, order 0 to 50, unscaled",
    "i_imaginary_axis_50-340": "imaginary axis, order 50 to 340, unscaled",
    "i_imaginary_axis_0-340_long_lists": "n = 512, imaginary axis, order 0 to 340, unscaled",
    "i_0-340_long_lists": "n = 512, order 0 to 340, unscaled",
    "i_340-365_near_the_edge": "order 340 to 365, \\|z\\| at least 0.9 of its limit, unscaled",
    "i_tiny_z_2^-1000_to_2^-10": "\\|z\\| 2^-1000 to 2^-10, order 0 to 3",
    "i_340-1000": "\\|z\\| to 2√(v+n), order 340 to 1,000, unscaled and scaled",
}
# regions that are one row: hardly an entry of either is not zero
MERGED = {"i_340-1000_unscaled": "i_340-1000", "i_340-1000_scaled": "i_340-1000"}


def words_of(key):
    if key in WORDS:
        return WORDS[key]
    rest, scaling = key.rsplit("_", 1)
    if rest in BRANCHES:
        return f"{BRANCHES[rest]}, {scaling}"
    branch, orders = rest.rsplit("_", 1)
    low, high = orders.split("-")
    return f"{BRANCHES[branch]}, order {low} to {int(high):,}, {scaling}"


class Region:
    def __init__(self):
        self.asked, self.answered, self.zeros, self.unknown = 0, [0, 0, 0], [0, 0, 0], 0
        self.unfinished = 0
        self.refused = defaultdict(int)
        self.errors = ([], [], [])  # of each side: (error by modulus, the call, the entry)
        self.parts = ([], [], [])  # of each side: error of the worse part
        self.largest_zero = -math.inf

    def add(self, fields):
        self.asked += 1
        number, n = fields[7], int(fields[3])
        self.answered[1] += fields[12] == "1"
        self.answered[2] += fields[17] == "1"
        if number != "0":
            self.refused[number] += 1
            return
        self.answered[0] += 1
        for end in range(1 if n == 1 else 2):
            *errors, size = fields[22 + 4 * end : 26 + 4 * end]
            for side, error in enumerate(errors):
                if error == "z":
                    self.zeros[side] += 1
                    if side == 0:
                        self.largest_zero = max(self.largest_zero, float(size))
                elif error == "u":
                    self.unknown += side == 0
                elif error == "n":
                    self.unfinished += side == 0
                elif error != "-":
                    whole, part = map(float, error.split("/"))
                    self.errors[side].append((whole, fields, end))
                    self.parts[side].append(part)

    def finish(self):
        for errors in self.errors:
            errors.sort(key=lambda e: e[0])
        for parts in self.parts:
            parts.sort()


def spread(errors):
    """Median, 99% and worst of a sorted list, or its worst alone where it is short."""
    if not errors:
        return "-"
    at = lambda q: figure(errors[min(len(errors) - 1, int(q * len(errors)))])
    return f"{at(0.5)} / {at(0.99)} / {at(1.0)}" if len(errors) >= FEWEST else f"- / - / {at(1.0)}"


def figure(x):
    if x < 9.95:
        return f"{x:.1f}"
    if x == math.inf:
        return "above 1e+308"
    return f"{x:,.0f}" if x < 1e7 else f"{x:.1e}"


def figures(regions, kind):
    """Each cell of a side: median / 99% / worst."""
    yield "| region | asked | answered | entries | zeros | ours, modulus | ours, worse part | text, modulus | text, worse part | 644, modulus | 644, worse part |"
    yield "|" + "---|" * 11
    for key, r in regions.items():
        if key.startswith(kind + "_"):
            columns = [spread(errors) for side in range(3) for errors in ([e[0] for e in r.errors[side]], r.parts[side])]
            yield f"| {words_of(key)} | {r.asked:,} | {r.answered[0]:,} | {len(r.errors[0]):,} | {r.zeros[0]:,} | " + " | ".join(columns) + " |"


def place(worst):
    error, f, end = worst
    n = int(f[3])
    return f"{figure(error)} | {'scaled' if f[2] == '1' else 'unscaled'}, n={n}, entry {(n - 1) * end} | {f[4]} | {f[5]} | {f[6]}"


def worst_inputs(regions, kind):
    yield "| region | side | worst | call | v | re | im |"
    yield "|" + "---|" * 7
    for key, r in regions.items():
        if key.startswith(kind + "_") and r.errors[0]:
            ours, text = place(r.errors[0][-1]), place(r.errors[1][-1])
            yield f"| {words_of(key)} | {'both' if ours == text else 'ours'} | {ours} |"
            if ours != text:
                yield f"| | text | {text} |"


FAR = {
    "far_holes": "I with holes, n = 417",
    "far_subnormal_seeds": "K from subnormal seeds",
    "far_zero": "K given as 0",
    "far_subnormal_order": "K at a subnormal order",
}


def pair(re, im):
    return f"{float(re):.10g}" + (f" {'-' if float(im) < 0 else '+'} {abs(float(im)):.10g}i" if float(im) != 0 else "")


def far(path):
    yield "| case, unscaled, first entry | v | re | im | computed | true | 644 |"
    yield "|" + "---|" * 7
    with open(path) as lines:
        for f in map(str.split, lines):
            ours, text, fortran = (pair(*map(number, f[side : side + 2])) for side in (8, 13, 18))
            if f[8:10] != f[13:15]:
                ours += f" (text {text})"
            yield f"| {FAR[f[0]]} | {f[4]} | {f[5]} | {f[6]} | {ours} | {pair(f[26], f[27])} | {fortran} |"


def reach(regions):
    """Where the entries lie whose error by modulus is above 4,096 units, region by region: the pictures' two highest classes."""
    yield f"| region | entries | above {FAR_OFF:,} units | above 1 in 1,000 | their orders | re | \\|im\\| | text above {FAR_OFF:,} | 644 above {FAR_OFF:,} |"
    yield "|" + "---|" * 9
    for key, r in regions.items():
        off = [(error, *map(number, f[4:7])) for error, f, _ in r.errors[0] if error > FAR_OFF]
        others = [sum(error > FAR_OFF for error, _, _ in r.errors[side]) for side in (1, 2)]
        if not off and not any(others):
            continue
        part = sum(error > IN_A_THOUSAND for error, *_ in off)
        span = lambda place: f"{min(abs(o[place]) for o in off):.5g} to {max(abs(o[place]) for o in off):.5g}" if off else "-"
        yield f"| {key[0].upper()}: {words_of(key)} | {len(r.errors[0]):,} | {len(off):,} | {part:,} | {span(1)} | {span(2)} | {span(3)} | {others[0]:,} | {others[1]:,} |"


def read(path):
    regions = defaultdict(Region)
    pictures = defaultdict(list)
    with open(path) as lines:
        for line in lines:
            fields = line.split()
            if fields[0].startswith("picture_"):
                pictures[fields[0]].append(fields)
            elif not fields[0].startswith("far_"):
                regions[MERGED.get(fields[0], fields[0])].add(fields)
    for r in regions.values():
        r.finish()
    return regions, pictures


def main():
    regions, pictures = read(sys.argv[1])
    out = []
    for kind in ("k", "i"):
        out += [f"### {kind.upper()}: errors", "", *figures(regions, kind), "", f"### {kind.upper()}: the worst calls", "", *worst_inputs(regions, kind), ""]
    out += ["### Far from the truth: the calls", "", *far(sys.argv[2]), "", "### Far from the truth: how far it reaches", "", *reach(regions), ""]
    before, rest = open(DOCUMENT).read().split(BEGIN)
    after = rest.split(END)[1]
    open(DOCUMENT, "w").write(before + BEGIN + "\n".join(out) + END + after)
    for key, r in regions.items():
        print(key, "refused", dict(r.refused), "answered", r.answered, "zeros", r.zeros, "unfinished", r.unfinished, "unknown", r.unknown, "largest true modulus of a zero 10^%.1f" % r.largest_zero)
    print("calls asked", sum(r.asked for r in regions.values()), "answered", sum(r.answered[0] for r in regions.values()), "entries", sum(len(r.errors[0]) for r in regions.values()))
    write_pictures(pictures)


if __name__ == "__main__":
    main()
