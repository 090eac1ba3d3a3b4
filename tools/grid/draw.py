#!/usr/bin/env python3
"""Draws the grid of an elementary routine and works out its references with mpmath.

    draw.py first  ROUTINE..           the half that is drawn by the fixed seed below, before a definition was settled
    draw.py second COMMIT ROUTINE..    the half that is drawn by the commit that settled the definition

ROUTINE is a name of RANGES, or `all`. Each half goes to grid/ROUTINE.first or grid/ROUTINE.second: a line of text (the seed, the number of
records, the digest of the definition where there is one), then records of big-endian numbers: the argument's bits (two arguments for hypot
and angle), the bits of the f64 nearest to the true value, and what is left of the true value in 1/32768 of that f64's last place, 16 bits signed.
The references need 1,300 binary digits of mpmath and nothing of this project.
"""
import math
import os
import random
import re
import struct
import sys

from digest import digest
from mpmath import mp, mpf

mp.prec = 1300
GRID = os.path.join(os.path.dirname(os.path.abspath(__file__)), "grid")
FIRST_SEED = "lichenoar, first half, 2026-11-15"
HALF = 5120

LARGEST = float.fromhex("0x1.fffffffffffffp+1023")


def bits(x):
    return struct.unpack(">Q", struct.pack(">d", x))[0]


def of_bits(b):
    return struct.unpack(">d", struct.pack(">Q", b))[0]


# ---- how arguments are drawn


def by_exponent(r, low, high):
    """A magnitude whose binary exponent is even over low..high, with random digits; -1074 reaches the subnormal numbers."""
    e = r.randint(low, high)
    if e < -1022:
        return of_bits(r.getrandbits(e + 1074) | 1 << (e + 1074))
    return of_bits((e + 1023) << 52 | r.getrandbits(52))


def beside(r, x, places=3):
    """x moved by a few units in the last place."""
    for _ in range(r.randint(0, places)):
        x = math.nextafter(x, math.inf if r.random() < 0.5 else -math.inf)
    return x


def sign(r, x):
    return -x if r.random() < 0.5 else x


def draw_exp(r):
    k = r.random()
    if k < 0.4:
        return r.uniform(-705.0, 705.0)
    if k < 0.55:
        return r.uniform(-746.0, -705.0)
    if k < 0.65:
        return r.uniform(705.0, 709.7)
    if k < 0.8:
        return sign(r, by_exponent(r, -60, 8))
    if k < 0.95:
        return beside(r, r.randint(-705 * 64, 705 * 64) / 64.0)
    return r.uniform(-1.0, 1.0)


def draw_hyperbolic(r):
    k = r.random()
    if k < 0.4:
        return r.uniform(-355.0, 355.0)
    if k < 0.55:
        return r.uniform(-3.0, 3.0)
    if k < 0.75:
        return sign(r, by_exponent(r, -60, 8))
    if k < 0.9:
        return sign(r, beside(r, r.randint(0, 705 * 64) / 64.0))
    return sign(r, r.uniform(355.0, 705.0))


def draw_ln(r):
    k = r.random()
    if k < 0.35:
        return by_exponent(r, -1022, 1023)
    if k < 0.45:
        return by_exponent(r, -1074, -1023)
    if k < 0.65:
        return 1.0 + sign(r, by_exponent(r, -52, -3))
    if k < 0.8:
        return r.uniform(0.4, 2.5)
    if k < 0.95:
        return beside(r, (1.0 + r.randint(0, 256) / 256.0) * 2.0 ** r.randint(-3, 3))
    return beside(r, 2.0 ** r.randint(-1022, 1023))


def draw_sqrt(r):
    k = r.random()
    if k < 0.4:
        return by_exponent(r, -1022, 1023)
    if k < 0.55:
        return by_exponent(r, -1074, -1023)
    if k < 0.7:
        return r.uniform(0.0, 46341.0)
    if k < 0.85:
        # beside the square of a 26-digit number, and of the half-way points that 53 digits can come near to
        n = r.getrandbits(26) | 1 << 26
        return beside(r, float(n * n) * 2.0 ** r.randint(-400, 400), 2)
    return beside(r, 4.0 ** r.randint(-511, 511) * r.choice([1.0, 2.0]), 4)


def draw_circular(r):
    k = r.random()
    if k < 0.4:
        return r.uniform(-32769.0, 32769.0)
    if k < 0.6:
        return r.uniform(-8.0, 8.0)
    if k < 0.8:
        return sign(r, by_exponent(r, -60, 14))
    # beside a multiple of a quarter of pi
    return sign(r, beside(r, float(mp.pi / 4 * r.randint(1, 41722)), 2))


def draw_pi(r):
    k = r.random()
    if k < 0.45:
        return r.uniform(-0.5, 0.5)
    if k < 0.75:
        return sign(r, by_exponent(r, -60, -2))
    if k < 0.95:
        return sign(r, min(0.5, beside(r, r.randint(0, 128) / 256.0)))
    return sign(r, 0.5 - by_exponent(r, -53, -4))


def draw_sin_pi(r):
    x = draw_pi(r)
    return 0.25 if abs(x) == 0.5 or x == 0.0 else x


def draw_cos_pi(r):
    x = draw_pi(r)
    return 0.25 if abs(x) == 0.5 else x


def draw_round(r):
    k = r.random()
    if k < 0.4:
        return r.uniform(0.0, 1000.0)
    if k < 0.8:
        return abs(beside(r, r.randint(0, 2000) / 2.0))
    return by_exponent(r, -60, 9)


def pair_by_exponent(r):
    a = by_exponent(r, -1074, 1023)
    if r.random() < 0.7:
        e = math.frexp(a)[1] - 1 + r.randint(-60, 60)
        b = by_exponent(r, max(-1074, min(1023, e)), max(-1074, min(1023, e)))
    else:
        b = by_exponent(r, -1074, 1023)
    return a, b


def draw_pair(r):
    k = r.random()
    if k < 0.35:
        a, b = r.uniform(0.0, 32768.0), r.uniform(0.0, 32768.0)
    elif k < 0.7:
        a, b = pair_by_exponent(r)
    elif k < 0.85:
        a = by_exponent(r, -20, 15)
        b = beside(r, a * r.randint(0, 128) / 128.0) or a
    else:
        a, b = by_exponent(r, -30, 15), by_exponent(r, -30, 15)
    if r.random() < 0.5:
        a, b = b, a
    return sign(r, a), sign(r, b)


# ---- what they are to give


def true_round(x):
    """Half away from zero, by whole numbers."""
    n, d = x.as_integer_ratio()
    q = (2 * abs(n) + d) // (2 * d)
    return mpf(-q if n < 0 else q)


RANGES = {
    "sqrt": (draw_sqrt, mp.sqrt),
    "hypot": (draw_pair, lambda x, y: mp.sqrt(x * x + y * y)),
    "exp": (draw_exp, mp.exp),
    "ln": (draw_ln, mp.log),
    "sin": (draw_circular, mp.sin),
    "cos": (draw_circular, mp.cos),
    "angle": (draw_pair, mp.atan2),
    "sinh": (draw_hyperbolic, mp.sinh),
    "cosh": (draw_hyperbolic, mp.cosh),
    "sin_pi": (draw_sin_pi, lambda x: mp.sin(mp.pi * x)),
    "cos_pi": (draw_cos_pi, lambda x: mp.cos(mp.pi * x)),
    "round": (draw_round, None),
}

def nearest(v):
    """The f64 nearest to v, ties to even, and (v - it) in 1/32768 of its last place."""
    if v == 0:
        return 0.0, 0
    man, exp = int(v.man), int(v.exp)
    negative = v < 0
    man = abs(man)
    top = man.bit_length() + exp - 1
    unit = max(top - 52, -1074)
    shift = exp - unit
    if shift >= 0:
        q, num, den = man << shift, 0, 1
    else:
        q, num, den = man >> -shift, man & ((1 << -shift) - 1), 1 << -shift
        if 2 * num > den or (2 * num == den and q % 2 == 1):
            q, num = q + 1, num - den
    left = (num * 65536 + den) // (2 * den)
    if q.bit_length() > 53:
        q, unit, left = q >> 1, unit + 1, left // 2
    if q.bit_length() + unit > 1024:
        return (-math.inf if negative else math.inf), 0
    return (-math.ldexp(q, unit), -left) if negative else (math.ldexp(q, unit), left)


def write(routine, half, seed, extra):
    draw, truth = RANGES[routine]
    r = random.Random(f"{seed}/{routine}")
    out = [f"{routine} {half} seed={seed} records={HALF}{extra}\n".encode("ascii")]
    for place in range(HALF):
        if place % 512 == 0:
            print(f"{routine}.{half}: {place} of {HALF}", file=sys.stderr)
        x = draw(r)
        xs = x if isinstance(x, tuple) else (x,)
        if truth is None:
            v = true_round(x)
        else:
            v = truth(*[mpf(t) for t in xs])
        near, left = nearest(v)
        out.append(b"".join(struct.pack(">d", t) for t in xs) + struct.pack(">dh", near, left))
    os.makedirs(GRID, exist_ok=True)
    open(os.path.join(GRID, f"{routine}.{half}"), "wb").write(b"".join(out))
    print(f"{routine}.{half}: {HALF} records, seed {seed}")


def main():
    a = sys.argv[1:]
    if len(a) >= 2 and a[0] == "first":
        half, seed, names = "first", FIRST_SEED.replace(" ", "_"), a[1:]
    elif len(a) >= 3 and a[0] == "second" and re.fullmatch(r"[0-9a-f]{40}", a[1]):
        half, seed, names = "second", a[1], a[2:]
    else:
        sys.exit(__doc__)
    for name in list(RANGES) if names == ["all"] else names:
        write(name, half, seed, f" definition={digest(name)}" if half == "second" else "")


main()
