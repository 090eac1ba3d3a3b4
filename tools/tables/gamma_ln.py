#!/usr/bin/env python3
"""gamma_ln.py [--check]: the two tables of log-gamma, from mpmath at 300 bits.

The 22 coefficients B(2k)/(2k(2k-1)) of Stirling's series, DLMF 5.11.1, for crate gamma_ln, and ln((j-1)!) at index j = 1..100 for crate gamma_ln_tables, each
the nearest f64; index 0 is never asked for and holds 0. Writes the constant arrays, their definitions, and the proof that whole_value reads the second one; with
--check it writes nothing, compares the files, prints every number with its bits and its distance from the true value in units of its last place, and fails
above one half."""
import os, sys
from mpmath import mp, mpf, bernoulli, loggamma, log, pi, frexp, nstr
from arms import answers
from f64 import bits, nearest, of_bits

mp.prec = 300
HERE = os.path.dirname(os.path.abspath(__file__))
CRATES = os.path.join(HERE, '..', '..', 'crates')


def true_values():
    coefficients = [bernoulli(2 * k) / (2 * k * (2 * k - 1)) for k in range(1, 23)]
    factorials = [mpf(0)] + [loggamma(mpf(j)) if j > 2 else mpf(0) for j in range(1, 101)]
    return coefficients, factorials


# the name on the page of constants, the definition, the array, what an entry is
TABLES = [
    ('coefficient', 'coefficients', 'COEFFICIENTS', 'B(2k)/(2k(2k-1)) with k = i + 1'),
    ('whole_value', 'whole_values', 'WHOLE_VALUES', 'ln((j-1)!), log-gamma at j itself; no argument asks for index 0'),
]
LN_2_PI = 0x3FFD67F1C864BEB5


def array(row, table):
    return ['', '// ' + row[3], '%s: [f64; %d] = [' % (row[2], len(table))] + ['    %r,' % x for x in table] + ['];']


def coefficients_source(table):
    out = ["// The coefficients of Stirling's series (DGAMLN's CF, DLMF 5.11.1), each the nearest f64. series.rt copies the array before its loop, which then unrolls:",
           '// no entry is stored (tools/objects). Written and confirmed by tools/tables/gamma_ln.py, with specs/Coefficients.antt.']
    return '\n'.join(out + array(TABLES[0], table)).replace('\nCOEFFICIENTS', '\npub const COEFFICIENTS') + '\n'


def whole_source(table):
    out = ["// Log-gamma at the whole arguments (DGAMLN's GLN), each number the nearest f64. The array is copied and each arm reads its own entry, so that the compiler",
           '// keeps one constant in memory and one load: a computed index would store all 101 entries first (tools/objects). Written and confirmed by',
           '// tools/tables/gamma_ln.py, with specs/Tables.antt and the proof that the two agree.',
           'ghost use Rattle.std.specs.Prelude.{◌≡◌, ◌<◌, get_or};', 'ghost use Rattle.std.specs.Float.{nan};',
           'ghost use Rattle.gamma_ln_tables.specs.Tables.{whole_values};']
    out += [line.replace('WHOLE_VALUES: ', 'const WHOLE_VALUES: ') for line in array(TABLES[1], table)]
    out += ['', 'pub fn whole_value(j: u32) -> f64', '    requires { j < %d }' % len(table), '    ensures { result ≡ get_or whole_values j nan }', '{',
            '    let values = WHOLE_VALUES;', '    match j {']
    out += ['        %s => values[%d],' % ('_' if j == len(table) - 1 else j, j) for j in range(len(table))]
    return '\n'.join(out + ['    }', '}']) + '\n'


def definition(row, table, head):
    out = head + ['use Rattle.std.specs.Prelude.{List, [], ◌∷◌, Float}', 'use Rattle.std.specs.Float.{binary64}', 'use Rattle.std.specs.Float.Ieee.{of_bits}', '', '-- ' + row[3], 'unfoldable pub %s : List Float' % row[1], '%s =' % row[1]]
    return '\n'.join(out + ['    of_bits binary64 0x%016X ∷  -- %r' % (bits(x), x) for x in table] + ['    []']) + '\n'


def proof(size):
    out = ['-- `gamma_ln_tables::tables::whole_value` meets its contract at each of %d entries. Written by tools/tables/gamma_ln.py. Assumes nothing.' % size,
           'use Rattle.laws.proofs.Arms.{last}', 'use Rattle.gamma_ln_tables.specs.Tables.{whole_values}',
           'use Rattle.gamma_ln_tables.proofs.tables.whole_value.Goals as goal']
    return '\n'.join(out + answers('j', size, 'whole_values')) + '\n'


def distance(x, true):
    """|x - true| in units of the last place of x."""
    return abs(mpf(x) - true) / mpf(2) ** (frexp(mpf(x))[1] - 53) if x else abs(true)


def report(tables, true):
    out, worst = [], mpf(0)
    rows = [('%s %d' % (row[0], i), x, t) for row, table, values in zip(TABLES, tables, true) for i, (x, t) in enumerate(zip(table, values))]
    rows.append(('ln 2 pi', of_bits(LN_2_PI), log(2 * pi)))
    for label, x, t in rows:
        d = distance(x, t)
        worst = max(worst, d)
        assert d <= mpf(1) / 2, label
        out.append('%-15s %016X %-24r %s' % (label, bits(x), x, nstr(d, 4)))
    out.append('%d numbers confirmed, the farthest %s units of its last place from the true value' % (len(rows), nstr(worst, 4)))
    return '\n'.join(out)


def main():
    true = true_values()
    tables = [[nearest(t) for t in values] for values in true]
    coefficients, whole = tables
    files = [
        ('gamma_ln/src/coefficients.rt', coefficients_source(coefficients)),
        ('gamma_ln/specs/Coefficients.antt', definition(TABLES[0], coefficients, ["-- The coefficients of Stirling's series (DGAMLN's CF), DLMF 5.11.1, each the nearest f64. Written and confirmed by",
                                                                                 '-- tools/tables/gamma_ln.py. Definitions only.'])),
        ('gamma_ln_tables/src/tables.rt', whole_source(whole)),
        ('gamma_ln_tables/specs/Tables.antt', definition(TABLES[1], whole, ["-- Log-gamma at the whole arguments (DGAMLN's GLN), each number the nearest f64. Written and confirmed by",
                                                                           '-- tools/tables/gamma_ln.py. Definitions only.'])),
        ('gamma_ln_tables/proofs/tables/whole_value/Answers.antt', proof(len(whole))),
    ]
    files = [(os.path.join(CRATES, *path.split('/')), text) for path, text in files]
    if '--check' in sys.argv[1:]:
        for path, text in files:
            assert open(path, encoding='utf-8').read() == text, path
        print(report(tables, true))
    else:
        for path, text in files:
            os.makedirs(os.path.dirname(path), exist_ok=True)
            open(path, 'w', encoding='utf-8').write(text)


main()
