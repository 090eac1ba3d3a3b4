#!/usr/bin/env python3
"""Holds the budget of docs/WORST-CASE.md to calls drawn over the whole domain: budget.py [CALLS [SEED]]. Prints how many were held to it and the least room left; a call above its budget
ends the run with 1."""
import math
import random
import struct
import sys

import count

BESIDE = {"temme": 2200, "complex": 3200, "real": 3400, "half": 1900}


def word(x):
    return struct.pack(">d", float(x)).hex().upper()


def order():
    return random.choice((random.uniform(0, 1000), random.uniform(0, 50), random.uniform(0, 8), random.uniform(0, 2), random.randrange(1001), random.randrange(1000) + 0.5,
                          random.randrange(1000) + 2.0 ** random.uniform(-60, -2)))


def orders():
    return random.choice((1, 2, random.randint(1, 9), random.randint(1, 20), random.randint(1, 512)))


def modulus():
    return random.choice((random.uniform(0, 2), random.uniform(2, 30), 2.0 ** random.uniform(-300, 1), random.uniform(30, 46000)))


def point(r):
    angle = random.choice((0, math.pi / 2, random.uniform(-math.pi / 2, math.pi / 2), random.uniform(-1e-3, 1e-3)))
    return abs(r * math.cos(angle)), r * math.sin(angle)


def k_budget(v, r, re, im, n, scaled, answer):
    nearest = math.floor(v + 0.5)
    entries, rungs = max(n - 2, 0), nearest + n - 2 if nearest or n > 1 else 0
    path = "half" if abs(v - nearest) == 0.5 else "temme" if r <= 2 else "real" if im == 0 else "complex"
    # a refusal by 8 keeps its counts to itself: the most seen, and its cells filled
    terms, backward, filled = (18, 158, 2 * n) if answer[0] else (answer[2], answer[4], 0)
    seeds = {"temme": 51 * terms, "complex": 28 * backward, "real": 18 * backward, "half": 0}[path]
    if re > 664 and not scaled:
        # every value on the way may be tried
        return 4150 + seeds + 720 * rungs + filled
    return BESIDE[path] + seeds + 22 * (rungs - entries) + 30 * entries + filled


def i_budget(n, exponent, answer):
    if answer[1] == 0 and exponent > -660:
        return 2200 + 42 * answer[2] + 65 * max(n - 2, 0)
    return 2200 + 985 * n


def k_call(v, n, scaled):
    re, im = point(modulus())
    if random.random() < 0.3:
        re, im = random.uniform(664, 1200), random.choice((random.uniform(-32768, 32768), 2.0 ** random.uniform(-60, 10)))
    if re > 32768 or abs(im) > 32768:
        return None
    return f"k {scaled} {word(v)} {word(re)} {word(im)} {n}", lambda a: k_budget(v, math.hypot(re, im), re, im, n, scaled, a) if a[0] in (0, 7, 8) else None


def i_call(v, n, scaled):
    r = random.choice((random.uniform(0, 2 * math.sqrt(v + n)), 2.0 ** random.uniform(-300, 1)))
    re, im = point(r)
    top = v + n - 1
    exponent = top * math.log(r / 2) - math.lgamma(top + 1) - scaled * re if r > 0 else -math.inf
    return f"i {scaled} {word(v)} {word(re)} {word(im)} {n}", lambda a: i_budget(n, exponent, a) if a[0] == 0 else None


def drawn():
    """A call, and its budget as a function of the answer; none where a part is too large."""
    one = k_call if random.random() < 0.7 else i_call
    return one(order(), orders(), random.randrange(2))


def main():
    size, seed = int(sys.argv[1]) if len(sys.argv) > 1 else 20000, int(sys.argv[2]) if len(sys.argv) > 2 else 644
    random.seed(seed)
    asked = []
    while len(asked) < size:
        one = drawn()
        if one:
            asked.append(one)
    print(f"budget.py: counting the instructions of {size} calls, some minutes", file=sys.stderr)
    inside, room, bad = 0, 10 ** 9, 0
    for (total, call, answer), (_, budget) in zip(count.counted(count.build("count"), [c for c, _ in asked]), asked):
        most = budget(answer)
        if most is None:
            continue
        inside, room = inside + 1, min(room, most - total)
        if total > most:
            print("above its budget:", total, most, call, *answer)
            bad = 1
    print(f"budget: {inside} calls by the seed {seed}, least room {room} instructions")
    return bad


if __name__ == "__main__":
    sys.exit(main())
