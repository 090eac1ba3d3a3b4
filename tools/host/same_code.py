#!/usr/bin/env python3
"""same_code.py A.o B.o: whether two objects for x86-64 have the same functions: the same bytes, calling the same names and using the same constants. Where the functions stand
in the file, and what the compiler wrote into its comment, does not count. Ends with 1 and names the first difference."""
import struct
import sys

SYMBOLS, ADDENDS = 2, 4
# relocations whose addend is counted from the end of their four bytes: PC32, PLT32, GOTPCREL and its relaxed kinds
RELATIVE = (2, 4, 9, 41, 42)


class Object:
    def __init__(self, path):
        with open(path, "rb") as file:
            self.bytes = file.read()
        at, = struct.unpack_from("<Q", self.bytes, 40)
        size, count, names = struct.unpack_from("<HHH", self.bytes, 58)
        self.sections = [struct.unpack_from("<IIQQQQIIQQ", self.bytes, at + i * size) for i in range(count)]
        self.names = [self.text(names, section[0]) for section in self.sections]
        self.symbols = [self.symbol(i, j) for i, s in enumerate(self.sections) if s[1] == SYMBOLS for j in range(s[5] // 24)]

    def text(self, section, at):
        start = self.sections[section][4] + at
        return self.bytes[start:self.bytes.index(b"\0", start)].decode()

    def data(self, section):
        return self.bytes[self.sections[section][4]:][:self.sections[section][5]]

    def symbol(self, section, i):
        name, _, _, where, value, _ = struct.unpack_from("<IBBHQQ", self.data(section), 24 * i)
        return self.text(self.sections[section][6], name), where, value

    def uses(self, symbol, kind, addend):
        """What a relocation stands for: a function by name, a constant by its bytes, or a place in a table by all of the table's."""
        name, where, value = self.symbols[symbol]
        if not 0 < where < len(self.names) or self.names[where].startswith(".text"):
            return name or self.names[where], value if not name else 0, addend
        at = value + addend + (4 if kind in RELATIVE else 0)
        each = self.sections[where][9] or self.sections[where][5]
        return self.data(where)[at // each * each:][:each], at % each

    def functions(self):
        """Bytes and uses of each function, by the name of its section."""
        out = {name: (self.data(i), []) for i, name in enumerate(self.names) if name.startswith(".text.")}
        for i, section in enumerate(self.sections):
            of = self.names[i][len(".rela"):]
            if section[1] == ADDENDS and of in out:
                for at in range(0, section[5], 24):
                    place, info, addend = struct.unpack_from("<QQq", self.data(i), at)
                    out[of][1].append((place, info & 0xFFFFFFFF, self.uses(info >> 32, info & 0xFFFFFFFF, addend)))
        return out


def difference(a, b):
    if not a or not b:
        return "an object has no function"
    if set(a) != set(b):
        return f"functions that one of them lacks: {', '.join(sorted(set(a) ^ set(b)))}"
    for name, (code, uses) in a.items():
        if code != b[name][0]:
            return f"the bytes of {name}"
        if uses != b[name][1]:
            return f"what {name} uses"
    return None


def main(paths):
    if len(paths) != 2:
        sys.exit(__doc__)
    try:
        found = [Object(path).functions() for path in paths]
    except OSError as wrong:
        sys.exit(f"same_code.py: {wrong.filename} cannot be read: {wrong.strerror}")
    wrong = difference(*found)
    if wrong:
        sys.exit(f"same_code.py: {paths[0]} and {paths[1]} differ: {wrong}")
    print(f"same_code.py: {len(found[0])} functions, the same in both")


if __name__ == "__main__":
    main(sys.argv[1:])
