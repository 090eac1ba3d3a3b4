#!/usr/bin/env python3
"""refusals.py VERSION < docs/lichenoar.1: prints the manual page with its version, and with the refusals that an answer line can have, words and remedy, from docs/refusals.txt."""
import os
import sys

LIST = os.path.join(os.path.dirname(os.path.abspath(__file__)), "..", "..", "docs", "refusals.txt")
MARK = '.\\" REFUSALS'


def entries():
    with open(LIST, encoding="utf-8") as lines:
        for line in lines:
            if line.startswith("#") or not line.strip():
                continue
            number, _, givers, words, remedy = split(line)
            if {"K", "I", "frame"} & set(givers.split()):
                yield f".TP\n.B {number}\n{roff(words)}.\n{roff(remedy[0].upper() + remedy[1:])}."


def split(line):
    """The five parts of a line. A bar with a space on both sides parts; another one belongs to the words."""
    parts = line.split(" | ")
    if len(parts) != 5:
        sys.exit(f"refusals.py: docs/refusals.txt: not five parts: {line.strip()}")
    return [part.strip() for part in parts]


def roff(words):
    words = words.replace("\\", "\\e").replace("-", "\\-")
    return "\\&" + words if words[0] in ".'" else words


def main():
    page = sys.stdin.read()
    if page.count(MARK) != 1:
        sys.exit(f"refusals.py: the page has not one line {MARK}")
    listed = list(entries())
    if not listed:
        sys.exit("refusals.py: docs/refusals.txt lists none")
    out = "\n".join("\n".join(listed) if line.startswith(MARK) else line for line in page.splitlines())
    print(out.replace("@VERSION@", sys.argv[1]))


if __name__ == "__main__":
    sys.stdin.reconfigure(encoding="utf-8")
    sys.stdout.reconfigure(encoding="utf-8")
    main()
