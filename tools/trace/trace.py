#!/usr/bin/env python3
"""trace.py            holds docs/TRACE.md to the repository. Every number of the list of obligations has one heading there; under it stands 'To come', or a pointer; every
                    quoted statement (a fenced block, behind a line that ends with a path in backticks and a colon) stands in that file, blanks and line ends aside; every
                    path in backticks exists.
trace.py --write    first brings out the paths that stand behind the three marks of a block, where a rendered page does not show them."""
import os
import re
import sys

TOP = os.path.dirname(os.path.dirname(os.path.dirname(os.path.abspath(__file__))))
PAGE = os.path.join(TOP, "docs", "TRACE.md")
NUMBERS = (
    [f"M{i}" for i in range(1, 11)]
    + [f"C{i}" for i in range(1, 7)]
    + ["A1", "A2", "A2b", "A3", "A4", "A5", "A6", "A7", "A8"]
    + [f"D{i}" for i in range(1, 6)]
    + [f"T{i}" for i in range(1, 11)]
    + ["F1", "F2"]
    + [f"X{i}" for i in range(1, 6)]
    + ["E1", "E2", "E4"]
)


HIDDEN = re.compile(r"^```(\S+/\S+)\n", flags=re.M)


def squeeze(text):
    return " ".join(text.split())


def bring_out():
    text = open(PAGE, encoding="utf-8").read()
    text, count = HIDDEN.subn(lambda found: f"`{found[1]}`:\n```\n", text)
    open(PAGE, "w", encoding="utf-8").write(text)
    print(f"TRACE.md: {count} paths brought out")


def quoted(body):
    """The path and the text of every block; None for the path, and what is wrong, where no reader of the rendered page sees one."""
    lines, above = iter(body.split("\n")), ""
    for line in lines:
        if line.startswith("```"):
            quote = "\n".join(iter(lambda: next(lines, "```"), "```"))
            named = re.search(r"`([^`\s]+/[^`\s]+)`:$", above)
            if line != "```":
                yield None, f"{line[3:]} behind the marks of a block is not shown (trace.py --write)"
            elif not named:
                yield None, f"no file is named above a block: {squeeze(quote)[:120]}"
            else:
                yield named[1], quote
        above = line


def main():
    if sys.argv[1:] == ["--write"]:
        bring_out()
    elif sys.argv[1:]:
        sys.exit(__doc__)
    text = open(PAGE, encoding="utf-8").read()
    parts = re.split(r"^### (\S+)", text, flags=re.M)
    heads, bodies = parts[1::2], parts[2::2]
    bad, quotes, coming = [], 0, 0
    for number in NUMBERS:
        if heads.count(number) != 1:
            bad.append(f"{number} has {heads.count(number)} headings")
    bad += [f"{head} is no number of the list" for head in heads if head not in NUMBERS]
    for head, body in zip(heads, bodies):
        blocks = list(quoted(body))
        prose = re.sub(r"^```.*?^```", "", body, flags=re.M | re.S)
        paths = [p for p in re.findall(r"`([^`\s]+/[^`\s]*)`", prose)]
        if "To come" in prose:
            coming += 1
        elif not blocks and not paths:
            bad.append(f"{head} points at nothing")
        for path in paths:
            if not os.path.exists(os.path.join(TOP, path)):
                bad.append(f"{head}: there is no {path}")
        for path, quote in blocks:
            if path is None:
                bad.append(f"{head}: {quote}")
                continue
            quotes += 1
            try:
                file = squeeze(open(os.path.join(TOP, path), encoding="utf-8").read())
            except OSError:
                bad.append(f"{head}: there is no {path}")
                continue
            if not quote.strip() or squeeze(quote) not in file:
                bad.append(f"{head}: not in {path}: {squeeze(quote)[:120]}")
    for line in bad:
        print("TRACE.md:", line)
    print(f"TRACE.md: {len(heads)} numbers, {quotes} quoted statements, {coming} with something to come")
    return 1 if bad else 0


sys.exit(main())
