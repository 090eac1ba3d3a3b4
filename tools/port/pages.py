#!/usr/bin/env python3
"""Brings names of definitions, lemmas and proof files in the pages' code spans to today's spelling, where that stands in crates/ and the older one does not.

usage: python3 tools/port/pages.py PAGE..   rewrites the pages, and lists each change and each name that stands nowhere

Run for the pages that speak of the repository as it is; docs/CHANGELOG.md, docs/DECISIONS.md and docs/landings/ keep the words of their day.
"""
import os
import re
import sys

from names import snake

TOP = os.path.dirname(os.path.dirname(os.path.dirname(os.path.abspath(__file__))))
NAME = re.compile(r"(?<![A-Za-z0-9_'/.-])[a-z][A-Za-z0-9_]*(?:-[A-Za-z0-9_]+)*'*(?![A-Za-z0-9_-])")


def words_of_crates():
    found = set()
    for folder, inner, names in os.walk(os.path.join(TOP, "crates")):
        inner[:] = [d for d in inner if d != "out"]
        for name in names:
            if name.endswith((".rt", ".antt")):
                with open(os.path.join(folder, name), encoding="utf-8") as f:
                    found.update(re.findall(r"[A-Za-z_][A-Za-z0-9_]*(?:-[A-Za-z0-9_]+)*'*", f.read()))
    return found


def main(pages):
    known, lost = words_of_crates(), set()
    for page in pages:
        with open(page, encoding="utf-8") as f:
            text = f.read()
        changes = []

        def name(m):
            old = m.group()
            if old in known or not re.search(r"[a-z0-9][A-Z]|-", old):
                return old
            for new in (snake(old), old.replace("-", "_"), snake(old).replace("-", "_")):
                if new != old and new in known:
                    changes.append(f"{old} -> {new}")
                    return new
            lost.add(f"{page}: {old}")
            return old

        def span(m):
            text = m.group()
            text = re.sub(r" \.«(\w+)»", r".\1", text)
            return NAME.sub(name, text)

        fenced = re.split(r"(^```.*?^```\n?)", text, flags=re.S | re.M)
        new = "".join(part if part.startswith("```") else re.sub(r"`[^`\n]+`", span, part) for part in fenced)
        if new != text:
            with open(page, "w", encoding="utf-8") as f:
                f.write(new)
        for change in sorted(set(changes)):
            print(f"{page}: {change}")
    for line in sorted(lost):
        print("stands nowhere:", line)


if __name__ == "__main__":
    main(sys.argv[1:])
