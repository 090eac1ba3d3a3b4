#!/usr/bin/env python3
"""The seed of a square root on [1, 4): 128 pieces, each with the quadratic that meets the root at the three Chebyshev points of the piece.
roots.py writes src/tables.rt and specs/Tables.antt of crate roots_tables and the proof that they agree, from one list.
roots.py --check writes nothing: it compares the files with the list, each constant with its value at 400 bits, and prints the largest relative error of the seed's square."""
import os
import struct
import sys
from fractions import Fraction
from mpmath import mp, mpf, cos, lu_solve, matrix, pi, sqrt

from arms import answers

mp.prec = 400
PIECES = 128
HERE = os.path.dirname(os.path.abspath(__file__))
CRATE = os.path.join(HERE, '..', '..', 'crates', 'roots_tables')
NAMES = (
    ('constant', 'constants', 'the constant terms'),
    ('slope', 'slopes', 'the factors of the distance from the left end'),
    ('bend', 'bends', 'the factors of its square, which is taken off'),
)


def piece(i):
    """Left end and width: 64 pieces in [1, 2), 64 in [2, 4)."""
    scale = 1 if i < 64 else 2
    return Fraction(scale * (64 + i % 64), 64), Fraction(scale, 64)


def quadratic(i):
    left, width = piece(i)
    system, values = matrix(3, 3), matrix(3, 1)
    for row in range(3):
        point = mpf(width.numerator) / width.denominator * (1 + cos(pi * (2 * row + 1) / 6)) / 2
        for column in range(3):
            system[row, column] = point ** column
        values[row] = sqrt(mpf(left.numerator) / left.denominator + point)
    return lu_solve(system, values)


def nearest(value):
    """The nearest binary64 to a value above zero, by integers: mpmath's own conversion is not trusted to round once."""
    assert value > 0
    exponent = int(mp.floor(mp.log(value, 2)))
    scaled = value * mpf(2) ** (52 - exponent)
    whole = int(mp.floor(scaled))
    rest = scaled - whole
    assert rest != mpf(1) / 2
    return (whole + (1 if rest > mpf(1) / 2 else 0)) * 2.0 ** (exponent - 52)


def bits(value):
    return struct.unpack('>Q', struct.pack('>d', value))[0]


def tables():
    columns = ([], [], [])
    for i in range(PIECES):
        constant, slope, bend = quadratic(i)
        for column, value in zip(columns, (constant, slope, -bend)):
            column.append(nearest(value))
    return columns


def source(columns):
    lines = [
        '// The seed\'s 128 quadratics. They are a match, which the compiler turns into constants in memory: an array would be stored anew in each',
        '// call. Written and confirmed by tools/tables/roots.py, with specs/Tables.antt and the proof that they agree.',
        'ghost use Rattle.std.specs.Prelude.{◌≡◌, ◌<◌, get_or};',
        'ghost use Rattle.std.specs.Float.{nan};',
        'ghost use Rattle.roots_tables.specs.Tables.{constants, slopes, bends};',
        '',
        '// constant + slope * d - bend * d * d, with d the distance from the left end of the piece',
        '#[derive(Clone, Copy)]',
        'pub struct Quadratic {',
    ]
    lines += [f'    pub {field}: f64,' for field, _, _ in NAMES]
    lines += ['}', '', 'pub fn quadratic_of(i: u64) -> Quadratic', f'    requires {{ i < {PIECES} }}']
    lines += ['    ensures { ' + '\n        × '.join(f'(result.{field} ≡ get_or {name} i nan)' for field, name, _ in NAMES) + ' }', '{', '    match i {']
    for i, row in enumerate(zip(*columns)):
        lines.append(f'        {"_" if i == PIECES - 1 else i} => Quadratic {{')
        lines += [f'            {field}: {value!r},' for (field, _, _), value in zip(NAMES, row)]
        lines.append('        },')
    return '\n'.join(lines + ['    }', '}']) + '\n'


def specification(columns):
    lines = ['-- The seed\'s 128 quadratics, by the bits of their coefficients; the decimals are in src/tables.rt. Definitions only.', 'use Rattle.std.specs.Prelude.{List, [], ◌∷◌, Float}', 'use Rattle.std.specs.Float.{binary64}', 'use Rattle.std.specs.Float.Ieee.{of_bits}']
    for (_, name, says), column in zip(NAMES, columns):
        lines += ['', '-- ' + says, f'unfoldable pub {name} : List Float', f'{name} =']
        lines += [f'    of_bits binary64 0x{bits(value):016X} ∷' for value in column]
        lines[-1] += ' []'
    return '\n'.join(lines) + '\n'


def proof():
    names = [name for _, name, _ in NAMES]
    lines = [
        f'-- `roots_tables::tables::quadratic_of` meets its contract, at each of its {PIECES} pieces. Written by tools/tables/roots.py. Assumes nothing.',
        'use mathlib.Core.Path.{refl}',
        f'use Rattle.roots_tables.specs.Tables.{{{", ".join(names)}}}',
        'use Rattle.laws.proofs.Arms.{last}',
        'use Rattle.roots_tables.proofs.tables.quadratic_of.Goals as goal',
    ]
    return '\n'.join(lines + answers('i', PIECES, ' '.join(names), ' (refl, refl, refl)')) + '\n'


def files(columns):
    return [
        (os.path.join(CRATE, 'src', 'tables.rt'), source(columns)),
        (os.path.join(CRATE, 'specs', 'Tables.antt'), specification(columns)),
        (os.path.join(CRATE, 'proofs', 'tables', 'quadratic_of', 'Answers.antt'), proof()),
    ]


def seed_error(columns):
    """The largest |P² / f - 1| at 33 points a piece, P the exact quadratic."""
    worst = Fraction(0)
    for i in range(PIECES):
        left, width = piece(i)
        c0, c1, c2 = (Fraction(column[i]) for column in columns)
        for k in range(33):
            d = width * k / 32
            value = c0 + c1 * d - c2 * d * d
            worst = max(worst, abs(value * value / (left + d) - 1))
    return worst


def check(columns):
    for path, text in files(columns):
        assert open(path, encoding='utf-8').read() == text, path
    print(f'{3 * PIECES} constants, each the nearest binary64; the square of the seed is within {float(seed_error(columns)):.3e} of its argument, relatively')


if __name__ == '__main__':
    if sys.argv[1:] == ['--check']:
        check(tables())
    elif not sys.argv[1:]:
        for path, text in files(tables()):
            os.makedirs(os.path.dirname(path), exist_ok=True)
            open(path, 'w', encoding='utf-8').write(text)
    else:
        sys.exit(__doc__)
