#!/usr/bin/env python3
"""logarithm.py [--check]: the tables of crate logarithm_tables, from mpmath at 300 bits.

Row j of 128 stands for the middle 1 + j/128 of a mantissa's piece: the reciprocal c, the i/256 nearest to 1/(1 + j/128); the excess
(1 + j/128)*c - 1, which is exact; and -ln c as high + low, high being the nearest multiple of 2^-42 and low the f64 nearest to the rest.
Writes src/tables.rt, specs/Tables.antt and the proof that they agree; with --check it writes nothing, compares the files, and tests every
property named here, the two parts of ln 2, and the polynomial: within 2^-64 of ln(1 + r) - r at 2,001 points of |r| <= 3/512."""
import os, sys
from mpmath import mp, mpf, log, log1p, nint, floor
from arms import answers
from f64 import bits, nearest, of_bits

mp.prec = 300
HERE = os.path.dirname(os.path.abspath(__file__))
CRATE = os.path.join(HERE, '..', '..', 'crates', 'logarithm_tables')
STEPS = 128


def rows():
    reciprocals, excesses, highs, lows = [], [], [], []
    for j in range(STEPS):
        middle = mpf(1) + mpf(j) / STEPS
        c = nint(256 / middle) / 256
        logarithm = -log(c)
        high = nint(logarithm * 2 ** 42) / 2 ** 42
        reciprocals.append(float(c))
        excesses.append(float(middle * c - 1))
        highs.append(float(high))
        lows.append(nearest(logarithm - high) if c != 1 else 0.0)
    return reciprocals, excesses, highs, lows


COLUMNS = [
    ('reciprocal', 'reciprocals', 'c, the i/256 nearest to 1 / (1 + j/128)'),
    ('excess', 'excesses', '(1 + j/128)*c - 1, exact'),
    ('high', 'logarithms_high', '-ln c to the nearest multiple of 2^-42'),
    ('low', 'logarithms_low', 'the rest of -ln c, nearest'),
]


def source(tables):
    out = ['// The table of ln: row j is for mantissas near 1 + j/128. It is a match, which the compiler turns into constants in memory: an array',
           '// would be stored anew in each call. Written and confirmed by tools/tables/logarithm.py, with specs/Tables.antt and the proof that they',
           '// agree.',
           'ghost use Rattle.std.specs.Prelude.{◌≡◌, ◌<◌};', 'ghost use Rattle.logarithm_tables.specs.Tables.{row_of};', '', '#[derive(Clone, Copy)]', 'pub struct Row {']
    for field, _, what in COLUMNS:
        out += ['    // ' + what, '    pub %s: f64,' % field]
    out += ['}', '', 'pub fn row_of(j: u64) -> Row', '    requires { j < %d }' % STEPS, '    ensures { result ≡ row_of j }', '{', '    match j {']
    for j, row in enumerate(zip(*tables)):
        out.append('        %s => Row {' % ('_' if j == STEPS - 1 else j))
        out += ['            %s: %r,' % (field, x) for (field, _, _), x in zip(COLUMNS, row)]
        out.append('        },')
    return '\n'.join(out + ['    }', '}']) + '\n'


def definitions(tables):
    out = ['-- The tables of ln: row j is for mantissas near 1 + j/128. Written and confirmed by tools/tables/logarithm.py. Definitions only.',
           'use Rattle.std.specs.Prelude.{List, [], ◌∷◌, ℕ, get_or, Float}', 'use Rattle.std.specs.Float.{nan, binary64}', 'use Rattle.std.specs.Float.Ieee.{of_bits}',
           'use Rattle.logarithm_tables.specs.declared.tables.Row.{Row}', '']
    for (_, name, what), table in zip(COLUMNS, tables):
        out += ['-- ' + what, 'unfoldable pub %s : List Float' % name, '%s =' % name]
        out += ['    of_bits binary64 0x%016X ∷  -- %r' % (bits(x), x) for x in table]
        out += ['    []', '']
    out += ['-- a row as one value', 'unfoldable pub row_of : ℕ → Row', 'row_of j = record {']
    out += ['  %s = get_or %s j nan;' % (field, name) for field, name, _ in COLUMNS]
    return '\n'.join(out + ['}']) + '\n'


def proof(tables):
    columns, lows = ' '.join(name for _, name, _ in COLUMNS), [min(row) for row in zip(*tables)]
    out = ['-- `logarithm_tables::tables::row_of` meets its contract, at each of its %d rows. Written by tools/tables/logarithm.py. Assumes nothing.' % STEPS,
           'use lib.Ieee.{of_bits, neg}', 'use Rattle.logarithm_tables.specs.Tables.{%s, row_of}' % columns.replace(' ', ', '),
           'use Rattle.laws.proofs.Arms.{last}', 'use Rattle.logarithm_tables.proofs.tables.row_of.Goals as goal']
    # the source has a minus sign where the definition has the sign's bit
    return '\n'.join(out + answers('j', STEPS, lambda k: '%srow_of %s' % ('of_bits neg ' if lows[k] < 0 else '', columns))) + '\n'


LN2_HIGH, LN2_LOW = 0x3FE62E42FEFA3800, 0x3D2EF35793C76730
COEFFICIENTS = [0xBFE0000000000001, 0x3FD5555555555564, 0xBFCFFFFFFFD5C2EC, 0x3FC999999945B3CC, 0xBFC5558A0A8ED5B1, 0x3FC2496407DE2F42]


def check(tables):
    for j, (c, k, h, l) in enumerate(zip(*tables)):
        middle = mpf(1) + mpf(j) / STEPS
        assert c * 256 == int(c * 256) and abs(256 * mpf(c) - 256 / middle) <= 0.5, j
        assert mpf(k) == middle * mpf(c) - 1, j
        assert mpf(h) * 2 ** 42 == floor(mpf(h) * 2 ** 42), j
        assert abs(mpf(h) + mpf(l) + log(mpf(c))) < mpf(2) ** -96, j
    high, low = of_bits(LN2_HIGH), of_bits(LN2_LOW)
    assert mpf(high) * 2 ** 42 == floor(mpf(high) * 2 ** 42)
    assert low == nearest(log(mpf(2)) - mpf(high))
    for j, (c, k) in enumerate(zip(tables[0], tables[1])):
        assert abs(k) + c / 256 <= 3 / 512, j
    for i in range(-1000, 1001):
        r = mpf(3) / 512 * i / 1000
        polynomial = sum(mpf(of_bits(b)) * r ** n for n, b in enumerate(COEFFICIENTS, 2))
        assert abs(polynomial - (log1p(r) - r)) <= mpf(2) ** -64, i


def main():
    tables = rows()
    check(tables)
    files = [(os.path.join(CRATE, *path.split('/')), text) for path, text in [
        ('src/tables.rt', source(tables)), ('specs/Tables.antt', definitions(tables)), ('proofs/tables/row_of/Answers.antt', proof(tables))]]
    if '--check' in sys.argv[1:]:
        for path, text in files:
            assert open(path, encoding='utf-8').read() == text, path
        print('logarithm: %d numbers confirmed' % (4 * STEPS + 2 + len(COEFFICIENTS)))
    else:
        for path, text in files:
            os.makedirs(os.path.dirname(path), exist_ok=True)
            open(path, 'w', encoding='utf-8').write(text)


main()
