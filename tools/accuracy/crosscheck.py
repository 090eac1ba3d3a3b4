#!/usr/bin/env python3
"""crosscheck.py CALLS TRUTH: holds Arb's values (the program TRUTH) to mpmath's, and to I(v) K(v+1) + I(v+1) K(v) = 1/z, at a few arguments of every region in CALLS."""
import struct
import subprocess
import sys

from mpmath import besseli, besselk, mp, mpc, mpf

mp.prec = 300
A_REGION = 3


def quick(order, z):
    """Where mpmath takes less than a few seconds: its K divides by sin(pi v), and it sums large arguments and orders by long series. The Wronskian is tried everywhere."""
    return (order == 0 or order > mpf(2) ** -60) and order < 400 and abs(z) < 100


def number(word):
    return struct.unpack(">d", bytes.fromhex(word))[0]


def chosen(path):
    """Every hundredth answered argument of a region, A_REGION of them; each is asked of K and of I, two orders, unscaled."""
    met, taken, out = {}, {}, []
    with open(path) as lines:
        for line in lines:
            f = line.split()
            if f[0].startswith(("picture_", "far_")) or f[7] != "0" or f[5] + f[6] == "0" * 32:
                continue
            met[f[0]] = met.get(f[0], 0) + 1
            if met[f[0]] % 100 == 1 and taken.get(f[0], 0) < A_REGION:
                taken[f[0]] = taken.get(f[0], 0) + 1
                out.append((f[0], f[4], f[5], f[6]))
    return out


def true_values(program, calls):
    text = "".join(f"{region} {kind} 0 2 {v} {re} {im} 0 0 0 0 0\n" for region, v, re, im in calls for kind in "KI")
    said = subprocess.run([program, "--values"], input=text, capture_output=True, text=True, check=True).stdout
    # error, log10, re, im of the first entry, then of the last
    return [[mpc(f[14], f[15]), mpc(f[18], f[19])] for f in (line.split() for line in said.splitlines())]


def main():
    calls = chosen(sys.argv[1])
    values = true_values(sys.argv[2], calls)
    against_mpmath, wronskian, compared = mpf(0), mpf(0), 0
    for place, (_, v, re, im) in enumerate(calls):
        order, z = mpf(number(v)), mpc(number(re), number(im))
        k, i = values[2 * place], values[2 * place + 1]
        wronskian = max(wronskian, abs((i[0] * k[1] + i[1] * k[0]) * z - 1))
        if not quick(order, z):
            continue
        for step in (0, 1):
            for arb, function in ((k[step], besselk), (i[step], besseli)):
                mine = function(order + step, z)
                against_mpmath = max(against_mpmath, abs(arb - mine) / abs(mine))
                compared += 1
    print(f"crosscheck: {compared} values within 2^{float(mp.log(against_mpmath, 2)):.1f} of mpmath's; the Wronskian at {len(calls)} arguments within 2^{float(mp.log(wronskian, 2)):.1f}")
    if max(against_mpmath, wronskian) > mpf(2) ** -75:
        sys.exit("crosscheck: a true value is in doubt")


if __name__ == "__main__":
    main()
