#!/usr/bin/env python3
"""lines.py                  lists every line that is too long to be read, and fails if there is one
lines.py --wrap [PAGE..]  wraps the paragraphs and list items of the pages that have such a line; words stay as they are

Sources and definitions: 160 characters. Pages: 140 characters a line of prose. Not prose, and left alone: tables, headings, fenced blocks,
blocks indented by four blanks, quoted lines, and a line of one word (an address, or code between two backticks)."""
import re
import sys
from pathlib import Path

TOP = Path(__file__).resolve().parents[2]
CODE, PROSE = 160, 140
WORD = re.compile(r"(?:`[^`]*`|\S)+")
ITEM = re.compile(r"\s*(?:[-*+]|\d+[.)])\s+")
OPENS_A_BLOCK = re.compile(r"[-*+]$|\d+[.)]$|[#>|]|=+$|-+$|```|~~~|<!--")


def sources():
    for pattern in ("crates/*/src/**/*.rt", "crates/*/specs/**/*.antt"):
        yield from sorted(TOP.glob(pattern))


def pages():
    yield from sorted(TOP.glob("*.md"))
    yield TOP / "NOTICE"
    for folder in ("docs", "bindings", "tools"):
        yield from (page for page in sorted((TOP / folder).rglob("*.md")) if "target" not in page.parts)


def is_block(line, before, in_block):
    """A line that is no prose by itself: of a table, a heading, a rule, a quotation, a comment, or of a block indented by four blanks."""
    if re.match(r"\||#|>|<!--|[-=*]{3,}$", line):
        return True
    return line.startswith("    ") and (in_block or not before.strip())


def paragraphs(lines):
    """(first, end) of each run of lines that is one paragraph or one list item of prose."""
    found, fence, in_block, start, before = [], "", False, None, ""
    for at, line in enumerate(lines + [""]):
        mark = re.match(r"\s*(```|~~~)", line)
        prose = not fence and not mark and bool(line.strip()) and not is_block(line, before, in_block)
        if start is not None and (not prose or ITEM.match(line)):
            found.append((start, at))
            start = None
        if prose and start is None:
            start = at
        if mark and (not fence or fence == mark.group(1)):
            fence = "" if fence else mark.group(1)
        in_block = not prose and line.startswith("    ")
        before = line
    return found


def too_long(line):
    item = ITEM.match(line)
    return len(line) > PROSE and len(WORD.findall(line[item.end() if item else 0:])) > 1


def wrapped(lines):
    """The same words in lines of at most PROSE characters, none of which begins like a block of another kind."""
    item = ITEM.match(lines[0])
    lead = item.group() if item else re.match(r"\s*", lines[0]).group()
    text = " ".join([lines[0][len(lead):], *(line.strip() for line in lines[1:])])
    indent = " " * len(lead)
    words = [part for word in WORD.findall(text) for part in ([word] if len(word) <= PROSE - len(lead) else word.split())]
    rows = [[]]
    for word in words:
        if rows[-1] and len(indent) + len(" ".join(rows[-1] + [word])) > PROSE:
            taken = [word]
            while OPENS_A_BLOCK.match(taken[0]) and len(rows[-1]) > 1:
                taken.insert(0, rows[-1].pop())
            rows.append(taken)
        else:
            rows[-1].append(word)
    return [(indent if n else lead) + " ".join(row) for n, row in enumerate(rows)]


def wrap(page):
    lines = page.read_text(encoding="utf-8").splitlines()
    for start, end in reversed(paragraphs(lines)):
        if any(map(too_long, lines[start:end])):
            lines[start:end] = wrapped(lines[start:end])
    page.write_text("\n".join(lines) + "\n", encoding="utf-8")


def check():
    bad, seen = [], 0
    for path in sources():
        lines = path.read_text(encoding="utf-8").splitlines()
        seen += len(lines)
        bad += [(path, at, len(line), CODE) for at, line in enumerate(lines, 1) if len(line) > CODE]
    for path in pages():
        lines = path.read_text(encoding="utf-8").splitlines()
        seen += len(lines)
        bad += [(path, at + 1, len(lines[at]), PROSE) for a, b in paragraphs(lines) for at in range(a, b) if too_long(lines[at])]
    for path, at, length, limit in bad:
        print(f"{path.relative_to(TOP)}:{at}: {length} characters, {limit} are allowed")
    print(f"lines.py: {seen} lines, {len(bad)} too long")
    return 1 if bad else 0


if sys.argv[1:2] == ["--wrap"]:
    for page in map(Path, sys.argv[2:]) if sys.argv[2:] else pages():
        wrap(page)
elif len(sys.argv) > 1:
    sys.exit(__doc__)
else:
    sys.exit(check())
