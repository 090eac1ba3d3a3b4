#!/usr/bin/env python3
"""statements.py COMMIT: what the lemmas, records and definitions in crates/*/proofs say now beside what they said at COMMIT, each that changed old above new, and
which are gone or new; the proofs of functions (Invariants.antt, Answers.antt) are left out, since they state nothing of their own. It goes with the kit's
contracts listing, which has the signatures, clauses and definitions, for docs/DESIGN-PASS.md.

A statement is known by its crate and its name, and compared as text, spaces aside."""
import pathlib
import re
import subprocess
import sys

TOP = pathlib.Path(__file__).resolve().parent.parent.parent
PLACE = re.compile(r"crates/(\w+)/proofs/.*(?<!/Invariants)(?<!/Answers)\.antt")
HEAD = re.compile(r"^(\s*)((?:pub |data |record |abbrev |unfoldable )*)([^\s:=(){}|]+)((?: [({][^=]*?[)}])*) :(?: (.*))?$")


def at(commit):
    """The proofs' files at a commit: path and text."""
    names = subprocess.run(["git", "-C", TOP, "ls-tree", "-r", "--name-only", commit, "crates"], capture_output=True, text=True, check=True).stdout
    for name in names.splitlines():
        if PLACE.fullmatch(name):
            yield name, subprocess.run(["git", "-C", TOP, "show", f"{commit}:{name}"], capture_output=True, text=True, check=True).stdout


def here():
    for path in sorted(TOP.glob("crates/*/proofs/**/*.antt")):
        name = str(path.relative_to(TOP))
        if PLACE.fullmatch(name):
            yield name, path.read_text(encoding="utf-8")


def deeper(line, indent):
    return line.strip() and len(line) - len(line.lstrip()) > indent and not line.strip().startswith(("--", "unfolding "))


def statements(text):
    """(name, whether it is pub, statement) of each in a file."""
    lines = text.split("\n")
    for i, line in enumerate(lines):
        found = None if line.strip().startswith("--") or line.startswith("use ") else HEAD.match(line)
        if not found or not found[1] and "→" not in line and "≡" not in line and found[5]:
            continue
        body = [line.strip()]
        if " where" not in line:
            for more in lines[i + 1 :]:
                if not deeper(more, len(found[1])):
                    break
                body.append(more.strip())
        yield found[3], "pub" in found[2], re.sub(r"\s+", " ", " ".join(body))


def gathered(files):
    by_name = {}
    for path, text in files:
        crate = PLACE.fullmatch(path)[1]
        for name, public, said in statements(text):
            by_name.setdefault((crate, name), []).append((pathlib.Path(path).name, public, said))
    return by_name


def main():
    before, now = gathered(at(sys.argv[1])), gathered(here())
    gone = sorted(key for key in before if key not in now)
    changed, same = [], 0
    for key in sorted(before.keys() & now.keys()):
        old, new = [x[2] for x in before[key]], [x[2] for x in now[key]]
        left = [x for x in before[key] if x[2] not in new]
        same += len(old) - len(left)
        if left:
            changed.append((key, left, [x for x in now[key] if x[2] not in old]))
    new = sorted(key for key in now if key not in before)
    print(f"statements in proofs/: the same {same}, changed {sum(len(x[1]) for x in changed)}, gone {len(gone)}, new {len(new)}; below, those that other files may cite")
    for crate, name in gone:
        file, public, _ = before[crate, name][0]
        if public:
            print(f"gone: {crate} {file} {name}")
    for (crate, name), old, said in changed:
        if not any(public for _, public, _ in old):
            continue
        print(f"statement: {crate} {old[0][0]} {name}")
        for sign, those in (("-", old), ("+", said)):
            for _, _, text in those:
                print(f"    {sign} {text}")
    for crate, name in new:
        if now[crate, name][0][1]:
            print(f"new: {crate} {now[crate, name][0][0]} {name}")


main()
