#!/usr/bin/env python3
"""tables.py LISTING..              fails where a function that reads a table of log-gamma stores as many bytes as the table has
tables.py --stored LISTING..     the other way round: fails unless each listing has such a function for each table (tools/objects/stored)

A constant array of the language is stored to the stack, element by element, wherever it is named, unless every index becomes a literal. The listings are
assembly (tools/objects/listing.sh). A function that names half of a table's numbers holds that table; all its stores together must be shorter than the table."""
import os
import re
import sys

HERE = os.path.dirname(os.path.abspath(__file__))
CRATES = os.path.join(HERE, '..', '..', 'crates')
TABLES = [('the coefficients of the series', 'gamma_ln/specs/Coefficients.antt'), ('the log-gammas of whole arguments', 'gamma_ln_tables/specs/Tables.antt')]
# bytes of a register of aarch64 by its letter, and of a store of x86-64 by its mnemonic
REGISTERS = {'q': 16, 'v': 16, 'd': 8, 'x': 8, 's': 4, 'w': 4}
MOVES = [(r'mov(aps|apd|ups|upd|dqa|dqu)$', 16), (r'mov(q|sd|lpd|hpd|lps|hps)$', 8), (r'mov(l|ss|d)$', 4), (r'movw$', 2), (r'movb$', 1)]


def numbers(path):
    """A table's bits, from its definition, which tools/tables/gamma_ln.py wrote."""
    found = {int(bits, 16) for bits in re.findall(r'of_bits binary64 0x([0-9A-F]{16})', open(os.path.join(CRATES, path), encoding='utf-8').read())}
    return found - {0}


def parse(path):
    """The constants of each label, and the instructions of each function: (mnemonic, operands)."""
    data, functions, kinds, label, name = {}, {}, set(), None, None
    for line in open(path, encoding='utf-8'):
        line = re.sub(r'(#|//|;) .*$', '', line).rstrip()
        kind = re.match(r'\t\.type\t(.+),[@%]function$', line)
        head = re.match(r'("[^"]+"|[^\s:]+):$', line)
        words = re.match(r'\t([a-z]\w*)\s*(.*)$', line)
        entry = re.match(r'\t\.(?:quad|xword)\t(0x[0-9a-f]+|-?\d+)', line)
        if kind:
            kinds.add(kind.group(1))
        elif head:
            label = head.group(1)
            if label in kinds:
                name = label
                functions[name] = []
            elif label.startswith('.Lfunc_end'):
                name = None
        elif entry and name is None:
            data.setdefault(label, []).append(int(entry.group(1), 0) % 2 ** 64)
        elif words and name is not None:
            functions[name].append(words.groups())
    return data, functions


def stored(word, operands):
    """The bytes that an instruction stores. A call that copies memory counts as more than any table."""
    single = re.match(r'st(?:r|ur|lr)([bh]?)$', word)
    if single:
        return {'b': 1, 'h': 2}.get(single.group(1)) or REGISTERS[operands[0]]
    if word in ('stp', 'stnp'):
        return 2 * REGISTERS[operands[0]]
    if word in ('call', 'callq', 'bl', 'jmp', 'b') and re.search(r'\bmem(cpy|move|set)\b', operands):
        return 2 ** 20
    if word.startswith('push'):
        return 8
    if operands.endswith(')'):
        return next((size for pattern, size in MOVES if re.match(pattern, word)), 0)
    return 0


def holders(data, functions, table):
    """The functions that name at least half of a table's numbers, with the bytes that each stores."""
    out = []
    for name, body in functions.items():
        text = ' '.join(operands for _, operands in body)
        labels = set(re.findall(r'"\.L[^"]+"|\.L[\w.$]+', text))
        named = {bits for label in labels for bits in data.get(label, [])}
        named |= {int(n, 0) % 2 ** 64 for word, operands in body if word.startswith('mov') for n in re.findall(r'\$(-?\w+), %', operands) if re.match(r'-?(0x)?[0-9a-f]+$', n)}
        if len(named & table) * 2 >= len(table):
            out.append((name, sum(stored(word, operands) for word, operands in body)))
    return out


def main():
    words = sys.argv[1:]
    wanted = words[:1] == ['--stored']
    bad = 0
    for path in words[wanted:]:
        data, functions = parse(path)
        for what, spec in TABLES:
            table = numbers(spec)
            found = holders(data, functions, table)
            for name, size in found:
                print('%s: %s reads %s, %d bytes, and stores %d' % (path, name.strip('"'), what, 8 * len(table), size))
                bad |= (size >= 8 * len(table)) != wanted
            if not found:
                print('%s: no function reads %s' % (path, what))
                bad = 1
    return int(bad)


if len(sys.argv) < 2:
    sys.exit(__doc__)
sys.exit(main())
