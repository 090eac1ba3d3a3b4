#!/usr/bin/env python3
"""temme.py [--check]: the eight coefficients of Temme's difference series, from mpmath at 300 bits.

(1/Gamma(1-v) - 1/Gamma(1+v)) / 2v is less the sum of a(2i+1) v^(2i), where a(j) is the coefficient of x^j in 1/Gamma(1+x); each is the nearest f64.
Writes them into src/difference.rt and specs/Difference.antt of crate temme; with --check it writes nothing, compares the files, prints every number
with its bits and its distance from the true value in units of its last place, and fails above one half."""
import os, re, sys
from mpmath import mp, mpf, frexp, nstr, rgamma, taylor
from f64 import bits, nearest

mp.prec = 300
CRATE = os.path.join(os.path.dirname(os.path.abspath(__file__)), '..', '..', 'crates', 'temme')


def put(path, pattern, text, check):
    """Puts text in the place of what the pattern finds; with check, says whether it stands there."""
    path = os.path.join(CRATE, path)
    old = open(path, encoding='utf-8').read()
    new = re.sub(pattern, lambda m: m.group(1) + text, old, count=1, flags=re.S)
    if check:
        return old == new
    open(path, 'w', encoding='utf-8').write(new)
    return True


def main():
    check = sys.argv[1:] == ['--check']
    true = taylor(lambda x: rgamma(1 + x), 0, 15)[1::2]
    table = [nearest(x) for x in true]
    source = ''.join('    %r,\n' % x for x in table)
    listed = ''.join('    %sof_bits binary64 0x%016X\n' % ('∷ ' if i else '', bits(x)) for i, x in enumerate(table)) + '    ∷ []\n'
    ok = put('src/difference.rt', r'(const COEFFICIENTS: \[f64; 8\] = \[\n)(?:    [^\n]*,\n)*', source, check)
    ok = put('specs/Difference.antt', r'(\ndifference_coefficients =\n)(?:    [^\n]*\n)*', listed, check) and ok
    for x, y in zip(true, table):
        off = abs(mpf(y) - x) / mpf(2) ** (frexp(mpf(y))[1] - 53)
        if check:
            print('%016X %r off by %s' % (bits(y), y, nstr(off, 4)))
        ok = ok and off <= mpf(1) / 2
    if not ok:
        sys.exit('temme.py: the files or the numbers are not right')


main()
