#!/usr/bin/env python3
"""The tables of crate exponential_tables, which exponential stands on, by mpmath at 400 bits: 177 powers e^(8(i-88)) and 256 powers e^(j/32 - 4 - 1/64), each as its
leading 26 digits, cut off, and the nearest f64 of the rest, which is therefore at least 0.

    exponential.py           write src/tables.rt, specs/Tables.antt and the proofs that they agree, from one list
    exponential.py --check   compare these files with the list, and measure every polynomial of crate exponential against mpmath

A table is a match, which the compiler turns into one constant in memory. An indexed array would be stored anew in each call.
"""
import os
import re
import sys

import mpmath

from arms import answers
from f64 import bits, nearest, of_bits

mpmath.mp.prec = 400
CRATES = os.path.join(os.path.dirname(os.path.abspath(__file__)), '..', '..', 'crates')
DIGITS = 26


def split(v):
    """v > 0 as its leading 26 digits, cut off, and the nearest f64 of what is left."""
    exponent = mpmath.frexp(v)[1] - DIGITS
    high = mpmath.ldexp(mpmath.floor(mpmath.ldexp(v, -exponent)), exponent)
    return nearest(high), nearest(v - high)


TABLES = [
    ('coarse', 'e^(8(i-88))', 'i', [split(mpmath.exp(8 * (i - 88))) for i in range(177)]),
    ('fine', 'e^(j/32 - 4 - 1/64)', 'j', [split(mpmath.exp(mpmath.mpf(j) / 32 - 4 - mpmath.mpf(1) / 64)) for j in range(256)]),
]


def rattle():
    out = ['// The powers of e that exp is put together from, each as its leading 26 digits and the rest, which is at least 0.',
           '// A table is a match, which the compiler turns into one constant in memory; an array would be stored anew in each call.',
           '// Written by tools/tables/exponential.py, with specs/Tables.antt and the proofs that they agree.',
           'ghost use Rattle.std.specs.Prelude.{◌≡◌, ◌<◌};',
           'ghost use Rattle.exponential_tables.specs.Tables.{%s};' % ', '.join(name + '_power' for name, _, _, _ in TABLES),
           'use machine::pair::Pair;']
    for name, what, index, entries in TABLES:
        out += ['', '// ' + what, 'pub fn %s(%s: usize) -> Pair' % (name, index), '    requires { %s < %d }' % (index, len(entries)),
                '    ensures { result ≡ %s_power %s }' % (name, index), '{', '    match %s {' % index]
        for k, (high, low) in enumerate(entries):
            key = '_' if k == len(entries) - 1 else '%d' % k
            out += ['        %s => Pair {' % key, '            hi: %r,' % high, '            lo: %r,' % low, '        },']
        out += ['    }', '}']
    return '\n'.join(out) + '\n'


def definitions():
    out = ['-- The powers of e that exp is put together from, each as its leading 26 digits and the rest, which is at least 0. Definitions only.',
           '-- Written by tools/tables/exponential.py, with src/tables.rt.',
           'use Rattle.std.specs.Prelude.{List, [], ◌∷◌, ℕ, get_or, Float}',
           'use Rattle.std.specs.Float.{nan, binary64}',
           'use Rattle.std.specs.Float.Ieee.{of_bits}',
           'use Rattle.machine.specs.declared.pair.Pair.{Pair}']
    for name, what, index, entries in TABLES:
        for part, column in (('high', [h for h, _ in entries]), ('low', [l for _, l in entries])):
            out += ['', '-- %s, the %s' % (what, 'leading 26 digits' if part == 'high' else 'rest'), 'unfoldable pub %s_%s : List Float' % (name, part), '%s_%s =' % (name, part)]
            out += ['    of_bits binary64 0x%016X ∷' % bits(v) for v in column]
            out += ['    []']
        out += ['', '-- both parts', 'unfoldable pub %s_power : ℕ → Pair' % name, 'unfolding %s_high %s_low' % (name, name),
                '%s_power %s = record { hi = get_or %s_high %s nan; lo = get_or %s_low %s nan }' % (name, index, name, index, name, index)]
    return '\n'.join(out) + '\n'


def proof(name, index, entries):
    count, words = len(entries), ['%s_%s' % (name, part) for part in ('high', 'low', 'power')]
    out = ['-- `exponential_tables::tables::%s` meets its contract, at each of its %d indices. Assumes nothing.' % (name, count),
           '-- Written by tools/tables/exponential.py.',
           'use Rattle.exponential_tables.specs.Tables.{%s}' % ', '.join(words),
           'use Rattle.laws.proofs.Arms.{last}',
           'use Rattle.exponential_tables.proofs.tables.%s.Goals as goal' % name]
    return '\n'.join(out + answers(index, count, ' '.join(words))) + '\n'


def files():
    """Each written file: its path in the crate, and its text."""
    return [('src/tables.rt', rattle()), ('specs/Tables.antt', definitions())] + [
        ('proofs/tables/%s/Answers.antt' % name, proof(name, index, entries)) for name, _, index, entries in TABLES]


def coefficients(file, name):
    """The bits in a definition of specs/, in the order of the text."""
    text = open(os.path.join(CRATES, 'exponential', 'specs', file), encoding='utf-8').read()
    body = re.search(r'^%s [^\n]*=\n(.*?)(?:\n\n|\Z)' % name, text, re.S | re.M).group(1)
    return [mpmath.mpf(of_bits(int(h, 16))) for h in re.findall(r'c\d+ = of_bits binary64 0x([0-9A-F]{16})', body)]


def worst(name, low, high, polynomial, exact):
    """The largest relative distance of exact coefficients' polynomial from the function, on 4,001 points."""
    low, high = mpmath.mpf(low), mpmath.mpf(high)
    error = 0
    for k in range(1, 4001):
        v = low + (high - low) * k / 4000
        true = exact(v)
        error = max(error, abs(polynomial(v) - true) / abs(true))
    print('%-22s of e^x, sinh x or cosh x: 2^%s' % (name, mpmath.nstr(mpmath.log(error, 2), 5)))
    return error < mpmath.mpf(2) ** -55


def horner(c, v):
    r = mpmath.mpf(0)
    for k in reversed(c):
        r = k + v * r
    return r


def bare(text):
    """A text without what the formatter may change."""
    return re.sub(r'\s+', '', text).replace(',}', '}')


def check():
    good = True
    for path, text in files():
        same = bare(open(os.path.join(CRATES, 'exponential_tables', path), encoding='utf-8').read()) == bare(text)
        print(path, 'agrees' if same else 'DIFFERS')
        good = good and same
    for _, _, _, entries in TABLES:
        good = good and all(low >= 0 and bits(high) % 2 ** (53 - DIGITS) == 0 for high, low in entries)
    g = coefficients('Exp.antt', 'growth')
    s = coefficients('Sinh.antt', 'sinh_small')
    c = coefficients('Cosh.antt', 'cosh_small')
    good = worst('growth', 0, mpmath.mpf(1) / 32, lambda v: 1 + v + v * v * horner(g, v), mpmath.exp) and good
    good = worst('sinh below 1', 0, 1, lambda v: v + v ** 3 * horner(s, v * v), mpmath.sinh) and good
    good = worst('cosh below 1', 0, 1, lambda v: 1 + v * v / 2 + v ** 4 * horner(c, v * v), mpmath.cosh) and good
    print('ok' if good else 'FAILED')
    return good


if __name__ == '__main__':
    if sys.argv[1:] == ['--check']:
        sys.exit(0 if check() else 1)
    if sys.argv[1:]:
        sys.exit(__doc__)
    for path, text in files():
        os.makedirs(os.path.dirname(os.path.join(CRATES, 'exponential_tables', path)), exist_ok=True)
        open(os.path.join(CRATES, 'exponential_tables', path), 'w', encoding='utf-8').write(text)
