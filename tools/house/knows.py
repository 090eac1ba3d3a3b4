#!/usr/bin/env python3
"""knows.py: holds the crates to the table of docs/ARCHITECTURE.md. Every crate of crates.txt has one row there, and no other crate has one; a
crate uses only what its row lets it know, which is the crates named in the third column and whatever these may know; and crates.txt names a
crate after the ones that it lists."""
import re
import sys

from sources import TOP, listed, uses

PAGE = TOP / "docs" / "ARCHITECTURE.md"
ALL = "everything"


def main():
    lists, bad, may = listed(), [], {}
    for row in re.findall(r"(?m)^\| `(\w+)` \|(.*)\|$", PAGE.read_text(encoding="utf-8")):
        if row[0] in may:
            bad.append(f"{row[0]} has two rows")
        third = re.split(r"(?<!\\)\|", row[1])[1]
        may[row[0]] = list(lists) if third.strip() == ALL else re.findall(r"`(\w+)`", third)
    bad += [f"{crate} has no row" for crate in lists if crate not in may]
    bad += [f"{crate} has a row, and is no crate" for crate in may if crate not in lists]
    for crate, others in uses().items():
        if crate not in may:
            continue
        known = list(may[crate])
        for other in known:
            known += [more for more in may.get(other, []) if more not in known]
        bad += [f"{crate} may not know {other}, and uses it by {how}" for other, how in others.items() if other not in known]
    names = list(lists)
    for n, crate in enumerate(names):
        bad += [f"crates.txt has {crate} before {other}, which it lists" for other in lists[crate] if other in names[n:]]
    print("\n".join(f"ARCHITECTURE.md: {line}" for line in bad) or f"ARCHITECTURE.md: {len(lists)} crates, none knows more than it may")
    return 1 if bad else 0


sys.exit(main())
