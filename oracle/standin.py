#!/usr/bin/env python3
"""standin.py FILE: holds what `standin` printed to mpmath, which knows nothing of the stand-in: each operation within a few units of 2^-52 of the size of its terms."""
import struct
import sys

from mpmath import mp, mpc, mpf

mp.prec = 200


def value(word):
    return struct.unpack(">d", bytes.fromhex(word))[0]


# the operation, its true value, and the size that its error is measured by
OPERATIONS = {
    "product": (lambda z, w: z * w, lambda z, w: abs(z) * abs(w)),
    "quotient": (lambda z, w: z / w, lambda z, w: abs(z) / abs(w)),
    "sum": (lambda z, w: z + w, lambda z, w: abs(z) + abs(w)),
    "difference": (lambda z, w: z - w, lambda z, w: abs(z) + abs(w)),
    "times": (lambda z, t: z * t, lambda z, t: abs(z * t)),
    "left_times": (lambda z, t: t * z, lambda z, t: abs(z * t)),
    "over": (lambda z, t: z / t, lambda z, t: abs(z / t)),
    "real_over": (lambda z, t: t / z, lambda z, t: abs(t / z)),
    "plus": (lambda z, t: z + t, lambda z, t: abs(z) + abs(t)),
    "minus": (lambda z, t: z - t, lambda z, t: abs(z) + abs(t)),
    "opposite": (lambda z: -z, abs),
    "conjugate": (lambda z: z.conjugate(), abs),
    "modulus": (lambda z: abs(z), abs),
    "norm_sqr": (lambda z: abs(z) ** 2, lambda z: abs(z) ** 2),
    "arg": (lambda z: mp.arg(z), lambda z: mpf(1)),
    "ln": (mp.log, lambda z: abs(mp.log(z)) + 1),
    "exp": (mp.exp, lambda z: abs(mp.exp(z))),
    "cosh": (mp.cosh, lambda z: mp.cosh(z.real)),
    "sinh": (mp.sinh, lambda z: mp.cosh(z.real)),
    "sqrt": (mp.sqrt, lambda z: abs(mp.sqrt(z))),
    "square": (lambda z: z * z, lambda z: abs(z) ** 2),
    "fifth": (lambda z: z**5, lambda z: abs(z) ** 5),
    "real_fifth": (lambda x: x**5, lambda x: abs(x) ** 5),
}


def main():
    worst, lines, bad = {}, 0, 0
    for line in open(sys.argv[1], encoding="ascii"):
        given, got = line.split("=")
        op, *words = given.split()
        xs, rs = [value(w) for w in words], [value(w) for w in got.split()]
        lines += 1
        if op == "assigned":
            true = ((mpc(3, -2) + mpc(1, 1) - mpf("0.5")) * mpc(0, 2)) / 4
            bad |= mpc(*rs) != true
            continue
        if op == "to_usize":
            bad |= rs[0] != (float(int(xs[0])) if xs[0] > -1 else -1.0)
            continue
        if op == "real_fifth":
            args = [mpf(xs[0])]
        elif len(xs) == 4:
            args = [mpc(xs[0], xs[1]), mpc(xs[2], xs[3])]
        elif len(xs) == 3:
            args = [mpc(xs[0], xs[1]), mpf(xs[2])]
        else:
            args = [mpc(xs[0], xs[1])]
        truth, size = OPERATIONS[op]
        have = mpc(*rs) if len(rs) == 2 else mpf(rs[0])
        error = float(abs(have - truth(*args)) / size(*args) * mpf(2) ** 52)
        worst[op] = max(worst.get(op, 0.0), error)
    for op, error in worst.items():
        print(f"{op}: {error:.2f} units of 2^-52")
    missing = [op for op in OPERATIONS if op not in worst]
    bad = bad or missing or max(worst.values()) > 8
    print(f"stand-in for num: {lines} lines, worst {max(worst.values()):.2f} units of 2^-52:", "DIFFERENT" if bad else "as mpmath has it")
    return 1 if bad else 0


sys.exit(main())
