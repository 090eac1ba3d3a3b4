#!/usr/bin/env python3
"""settled.py                     fails where a definition is not the one that the second half of its routine's grid was drawn for: draw it again
settled.py --table PAGE LOG     fails where a line of the table in LOG does not stand in PAGE
settled.py --respelled          writes respelled.txt anew: for definitions whose spelling alone changed, the digest that was drawn for, and that of the text now"""
import os
import subprocess
import sys

HERE = os.path.dirname(os.path.abspath(__file__))


RESPELLED = os.path.join(HERE, "respelled.txt")
HEAD = "# The definitions whose spelling alone changed since their grid was drawn (docs/PORT.md): the routine, the digest of the text that it was drawn for, that of the text now.\n"


def digests():
    """The digest of each definition as it stands."""
    return dict(line.split() for line in subprocess.run([sys.executable, os.path.join(HERE, "digest.py"), "all"], check=True, capture_output=True, text=True).stdout.splitlines())


def drawn_for(name):
    """The digest that the routine's second half was drawn for, or nothing."""
    try:
        words = open(os.path.join(HERE, "grid", name + ".second"), "rb").readline().decode("ascii").split()
    except OSError:
        return ""
    return next((word[len("definition="):] for word in words if word.startswith("definition=")), "")


def respelled():
    lines = [f"{name} {drawn_for(name)} {digest}\n" for name, digest in digests().items() if digest != drawn_for(name)]
    with open(RESPELLED, "w", encoding="utf-8") as file:
        file.writelines([HEAD, *lines])
    return 0


def definitions():
    now, alike, bad = digests(), [], 0
    if os.path.exists(RESPELLED):
        alike = [tuple(line.split()) for line in open(RESPELLED, encoding="utf-8") if not line.startswith("#")]
    for name, digest in now.items():
        path, drawn = os.path.join(HERE, "grid", name + ".second"), drawn_for(name)
        if digest != drawn and (name, drawn, digest) not in alike:
            print(f"{name}: the definition's digest is {digest}, which {os.path.basename(path)} was not drawn for")
            bad = 1
    print("definitions compared with their grids:", len(now))
    return bad


def table(page, log):
    have = set(open(page, encoding="utf-8").read().splitlines())
    want = [line for line in open(log, encoding="utf-8").read().splitlines() if line.startswith("| ")]
    missing = [line for line in want if line not in have]
    for line in missing:
        print("not in", page + ":", line)
    return 1 if missing or len(want) < 13 else 0


if len(sys.argv) == 4 and sys.argv[1] == "--table":
    sys.exit(table(sys.argv[2], sys.argv[3]))
if sys.argv[1:] == ["--respelled"]:
    sys.exit(respelled())
if len(sys.argv) == 1:
    sys.exit(definitions())
sys.exit(__doc__)
