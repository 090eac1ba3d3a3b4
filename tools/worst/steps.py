#!/usr/bin/env python3
"""What a step costs and what a call costs beside its steps: the two tables of docs/WORST-CASE.md, for this processor's archive (callgrind) and for the x86-64 one (the kit's emulator).

A step's cost is the middle one of the differences between neighbours in a family of calls that differ in one count alone. The rest of a call is its instructions less those of its
steps, over calls drawn at random by a fixed seed."""
import platform
import random
import statistics
import struct
import sys

import count
import emulated

# how many calls are drawn for the second table: the emulator is slow
SIZES = {platform.machine(): 2000, "x86-64": 200}
# places in an answer's record
NUMBER, ZEROS, SUM, RUNGS, BACKWARD = range(5)
# where some 250 values in a row are tried and lost
LOST = tuple(struct.unpack(">d", bytes.fromhex(w))[0] for w in ("4085BFF8C681A06A", "40DD0198A1CB94BE"))


def call(kind, scaled, v, re, im, n):
    words = [struct.pack(">d", float(x)).hex().upper() for x in (v, re, im)]
    return f"{kind} {scaled} {' '.join(words)} {n}"


# name, what a step is, calls, how many steps each took: a place of the record, or a list
FAMILIES = [
    ("term", "K: a term of Temme's sum", [call("k", 1, 0.3, 1 + i / 40, 0.5, 1) for i in range(36)], SUM),
    ("real", "K: a backward step, real argument", [call("k", 1, 0.3, 2.5 + i / 10, 0, 1) for i in range(60)], BACKWARD),
    ("complex", "K: a backward step, complex argument", [call("k", 1, 0.3, 2.5 + i / 10, 2, 1) for i in range(60)], BACKWARD),
    ("climb", "K: a rung below the first order wanted", [call("k", 1, v + 0.3, 1000.5, 3, 1) for v in range(100, 1000, 100)], RUNGS),
    ("fill", "K: a rung that gives an entry", [call("k", 1, 0.3, 1000.5, 3, n) for n in range(64, 513, 64)], RUNGS),
    ("low", "K out of underflow: a rung whose exponent is too low", [call("k", 0, v + 0.3, 32768, 3, 1) for v in range(100, 1000, 100)], list(range(100, 1000, 100))),
    ("lost", "K out of underflow: a rung whose value is tried and lost", [call("k", 0, v, *LOST, 1) for v in range(20, 241, 20)], list(range(20, 241, 20))),
    ("first", "K of orders from below 0.5 up, in underflow: an order set to zero for its exponent", [call("k", 0, 0.3, 32768, 3, n) for n in range(64, 513, 64)], RUNGS),
    ("i_term", "I: a term of a sum", [call("i", 1, 0.3, 0.5 + i / 25, 0.2, 1) for i in range(33)], SUM),
    ("i_seed", "I: an order summed and lost, 17 terms", [call("i", 0, 339 - n, 1e-20, 32, n) for n in range(1, 11)], list(range(1, 11))),
    ("i_rung", "I: a rung", [call("i", 0, 339.3 - n, 25, 20, n) for n in range(13, 26)], RUNGS),
    ("i_near", "I: a rung near underflow", [call("i", 0, 339.3 - n, 25, 20, n) for n in range(2, 13)], RUNGS),
    ("i_zero", "I: an order set to zero for its exponent", [call("i", 0, 1000.3 - n, 1e-3, 0.0005, n) for n in range(64, 513, 64)], list(range(64, 513, 64))),
    ("refused", "a refusal: a cell filled", [call("k", 0, 2000, 1, 0, n) for n in range(64, 513, 64)], list(range(128, 1025, 128))),
]


def cost_of(totals, steps):
    pairs = sorted(set(zip(steps, totals)))
    return statistics.median((t1 - t0) / (s1 - s0) for (s0, t0), (s1, t1) in zip(pairs, pairs[1:]) if s1 > s0)


def drawn(kind, low, high, half=False, real=False, orders=20):
    """A call whose modulus is between the two."""
    while True:
        re, im = random.uniform(0, high), 0.0 if real else random.uniform(-high, high)
        v = random.randrange(50) + 0.5 if half else random.uniform(0, 50)
        n = random.randint(1, orders)
        if low < abs(complex(re, im)) <= high and (kind == "k" or (re * re + im * im) / 4 < v + n):
            return call(kind, random.randrange(2), v, re, im, n)


# a name, a draw, and what the steps of an answer cost by the first table
def rungs_of_k(c, a, n):
    entries = max(n - 2, 0)
    return c["climb"] * (a[RUNGS] - entries) + c["fill"] * entries


PATHS = [
    ("K, \\|z\\| to 2 (Temme)", lambda: drawn("k", 0, 2), lambda c, a, n: c["term"] * a[SUM] + rungs_of_k(c, a, n)),
    ("K, \\|z\\| above 2, real", lambda: drawn("k", 2, 600, real=True), lambda c, a, n: c["real"] * a[BACKWARD] + rungs_of_k(c, a, n)),
    ("K, \\|z\\| 2 to 28, complex", lambda: drawn("k", 2, 28), lambda c, a, n: c["complex"] * a[BACKWARD] + rungs_of_k(c, a, n)),
    ("K, \\|z\\| 29 to 600, complex", lambda: drawn("k", 29, 600), lambda c, a, n: c["complex"] * a[BACKWARD] + rungs_of_k(c, a, n)),
    ("K, half orders", lambda: drawn("k", 0, 600, half=True), rungs_of_k),
    ("I, one order", lambda: drawn("i", 0, 12, orders=1), lambda c, a, n: c["i_term"] * a[SUM]),
    ("I, two or more", lambda: drawn("i", 0, 12), lambda c, a, n: 2 * c["i_term"] * a[SUM] + c["i_rung"] * a[RUNGS]),
]


def steps_table(archives):
    every = [c for _, _, calls, _ in FAMILIES for c in calls]
    totals = [run(every) for _, run in archives]
    answers = [answer for _, _, answer in COUNTED]
    costs = [{} for _ in archives]
    print("| a step | " + " | ".join(name for name, _ in archives) + " |\n|---|" + "---|" * len(archives))
    at = 0
    for key, words, calls, place in FAMILIES:
        part = slice(at, at + len(calls))
        steps = place if isinstance(place, list) else [a[place] for a in answers[part]]
        for cost, total in zip(costs, totals):
            cost[key] = cost_of(total[part], steps)
        print(f"| {words} | " + " | ".join(f"{cost[key]:.1f}".removesuffix(".0") for cost in costs) + " |")
        at += len(calls)
    return costs


def rest_table(archives, costs):
    print("\n| the rest of an answered call | " + " | ".join(f"{name}, {SIZES[name]} calls" for name, _ in archives) + " |\n|---|" + "---|" * len(archives))
    for words, draw, steps in PATHS:
        calls = []
        while len(calls) < max(SIZES.values()):
            c = draw()
            if not (words == "I, two or more" and c.endswith(" 1")):
                calls.append(c)
        totals = [run(calls[:SIZES[name]]) for name, run in archives]
        cells = []
        for cost, total in zip(costs, totals):
            rests = [t - steps(cost, a, int(c.split()[5])) for t, (_, c, a) in zip(total, COUNTED) if a[NUMBER] == 0 and a[ZEROS] == 0]
            cells.append(f"{min(rests):.0f} to {max(rests):.0f}")
        print(f"| {words} | " + " | ".join(cells) + " |")


# the calls counted last, with their answers
COUNTED = []


def by_callgrind(calls):
    COUNTED[:] = count.counted(PROGRAM, calls)
    return [total for total, _, _ in COUNTED]


PROGRAM = count.build("count")


def main():
    random.seed(644)
    # `alone`: this processor's archive only
    both = [(platform.machine(), by_callgrind)] + ([] if "alone" in sys.argv else [("x86-64", emulated.counted)])
    rest_table(both, steps_table(both))


if __name__ == "__main__":
    main()
