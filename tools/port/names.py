#!/usr/bin/env python3
"""Spells this repository's own definitions and lemmas in snake case: allFinite becomes all_finite.

usage: python3 tools/port/names.py            rewrites crates/*/{src,specs,proofs,must-fail}
       python3 tools/port/names.py --clashes  writes nothing: lists, file by file, words whose new spelling stands in that file already

Run once, after the kit's port.py and before any edit by hand. Types and modules keep their capitals, functions of src/ are in snake case already.
"""
import os
import re
import sys

WORD = re.compile(r"(?<![A-Za-z0-9_'])(?=[a-z_])[A-Za-z0-9_]*?[a-z0-9][A-Z][A-Za-z0-9_]*")


def snake(word):
    return re.sub(r"(?<=[a-z0-9])[A-Z]|(?<=[a-z0-9][A-Z])[A-Z](?=[a-z])", lambda m: "_" + m.group(0).lower(), word)


def files(root):
    for folder, inner, names in os.walk(os.path.join(root, "crates")):
        inner[:] = sorted(d for d in inner if d != "out")
        for name in sorted(names):
            if name.endswith((".rt", ".antt", ".edit")):
                yield os.path.join(folder, name)


def main(argv):
    root = os.path.join(os.path.dirname(os.path.abspath(__file__)), "..", "..")
    changed = 0
    for path in files(os.getcwd() if not os.path.isdir(os.path.join(root, "crates")) else root):
        with open(path, encoding="utf-8") as f:
            text = f.read()
        if argv == ["--clashes"]:
            there = set(re.findall(r"[A-Za-z_][A-Za-z0-9_]*", text))
            both = sorted({w for w in WORD.findall(text) if snake(w) in there})
            if both:
                print(os.path.relpath(path, root), " ".join(both))
            continue
        new = WORD.sub(lambda m: snake(m.group(0)), text)
        if new != text:
            with open(path, "w", encoding="utf-8") as f:
                f.write(new)
            changed += 1
    print(f"{changed} files rewritten")
    return 0


if __name__ == "__main__":
    raise SystemExit(main(sys.argv[1:]))
