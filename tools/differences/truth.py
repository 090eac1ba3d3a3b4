#!/usr/bin/env python3
"""truth.py < CALLS: the true first and last entries of the calls in the domain, by mpmath at 60 digits and more: K upward from its two lowest orders, I order by order.
The line at work stands on standard error."""
import struct
import sys
from mpmath import besseli, besselk, exp, floor, log10, mp, mpc, mpf, nstr


def k(v, z, n):
    """K of v and of v+n-1, by the recurrence from orders in [-1/2, 3/2), which is stable upward."""
    r = int(floor(v + mpf(1) / 2))
    x = v - r
    # besselk takes a difference of two sums over sin(pi x)
    mp.dps = 60 + (int(-log10(abs(x))) + 1) * 2 if x else 60
    a, b = besselk(x, z), besselk(x + 1, z)
    orders = [a, b]
    for j in range(1, r + n - 1):
        orders.append(2 * (x + j) / z * orders[-1] + orders[-2])
    return orders[r], orders[r + n - 1]


def of(bits):
    return struct.unpack(">d", bytes.fromhex(bits))[0]


def main():
    for place, line in enumerate(sys.stdin, 1):
        words = line.split()
        if not words or words[0] not in "KI":
            continue
        v, re, im = map(of, words[3:6])
        n, odd = divmod(int(words[2]), 2)
        if n < 1 or odd or not (0 <= v <= 1000 and 0 <= re <= 32768 and abs(im) <= 32768) or re == im == 0:
            continue
        print(f"truth.py: line {place}", file=sys.stderr)
        mp.dps = 60
        z = mpc(re, im) if im else mpf(re)
        if words[0] == "K":
            entries = k(mpf(v), z, n)
            scale = exp(z) if words[1] == "1" else 1
        else:
            entries = [besseli(v, z), besseli(v + n - 1, z)]
            scale = exp(-re) if words[1] == "1" else 1
        print(line.strip(), *(nstr(e * scale, 20) for e in entries[: n if n < 2 else 2]), sep="\n    ")


if __name__ == "__main__":
    main()
