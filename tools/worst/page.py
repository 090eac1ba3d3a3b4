#!/usr/bin/env python3
"""Writes the tables of docs/WORST-CASE.md and the figures of its first section again, for the archives as they are: page.py, some 5 minutes. The budget's numbers are written by
hand; budget.py holds the archive to them."""
import contextlib
import io
import os
import sys

import count
import steps
import table

PAGE = os.path.join(count.ROOT, "docs", "WORST-CASE.md")


def printed(function):
    print(f"page.py: the tables of {function.__module__}.py", file=sys.stderr)
    out = io.StringIO()
    with contextlib.redirect_stdout(out):
        function()
    return out.getvalue().strip()


def tables_of(text):
    """Each table of a text, by the words of its first cell."""
    parts = [part for part in text.split("\n\n") if part.startswith("|")]
    return {part.split("|")[1].strip(): part for part in parts}


def main():
    fresh = tables_of(printed(table.main) + "\n\n" + printed(steps.main))
    rows = {line.split("|")[1].strip(): [cell.strip() for cell in line.split("|")[4:6]] for line in fresh["class"].splitlines()}
    k, i, g = rows["**K, all**"], rows["**I, all**"], rows["**log-gamma**"]
    page = []
    for part in open(PAGE).read().split("\n\n"):
        first = part.split("|")[1].strip() if part.startswith("|") else ""
        page.append(fresh.get(first, part))
    lines = []
    for line in "\n\n".join(page).splitlines():
        if line.startswith("- K: **"):
            line = f"- K: **{k[0]}** instructions (aarch64) and {k[1]} (x86-64). I: **{i[0]}** and {i[1]}. Log-gamma: **{g[0]}** and {g[1]}."
        if line.startswith("- Scaled K"):
            line = f"- Scaled K has no such climb: its longest call took {rows['scaled K, all'][0]} instructions, and {rows['scaled K, v to 10, n to 2'][0]} for v to 10 and two orders."
        lines.append(line)
    with open(PAGE, "w") as f:
        f.write("\n".join(lines) + "\n")


if __name__ == "__main__":
    main()
