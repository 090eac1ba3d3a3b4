#!/usr/bin/env python3
"""Brings the statements that docs/TRACE.md quotes to the text as it stands: for each block that does not stand in its file, the page's block of the same place at
LANDED (the first line of docs/PORT.md) is looked up in its file as it was then, and what stands there now is put in.

usage: python3 tools/port/quotes.py            rewrites docs/TRACE.md, and lists what it could not place and what it is less sure of
       python3 tools/port/quotes.py --show     the same, and prints each block that changed, old above new

Places are found by the tokens of the two texts, spelled alike. Read the diff: what it puts in is a proposal.
"""
import difflib
import os
import re
import subprocess
import sys

TOP = os.path.dirname(os.path.dirname(os.path.dirname(os.path.abspath(__file__))))
PAGE = os.path.join(TOP, "docs", "TRACE.md")
LANDED = open(os.path.join(TOP, "docs", "PORT.md"), encoding="utf-8").readline().strip()
TOKEN = re.compile(r"[\w'«»]+|[^\w\s]")
BLOCK = re.compile(r"(`([^`\s]+/[^`\s]+)`:\n```\n)(.*?)(\n```)", re.S)


def alike(token):
    """A token under a spelling that both texts share."""
    token = token.strip("«»").replace("'", "")
    return re.sub(r"(?<=[a-z0-9])[A-Z]", lambda m: "_" + m.group().lower(), token).lower()


def tokens(text):
    """(spelled alike, start, end) of each token; brackets and what the two spellings have of their own are left out."""
    found = []
    for m in TOKEN.finditer(text):
        if m.group() not in "()⌜⌝{};,.λ-_" and not (m.group() in ("now", "entry", "exit", "old", "new", "result", "r")):
            for part in alike(m.group()).split("_"):
                if part:
                    found.append((part, m.start(), m.end()))
    return found


def landed(path):
    done = subprocess.run(["git", "show", f"{LANDED}:{path}"], cwd=TOP, capture_output=True, text=True)
    return done.stdout if done.returncode == 0 else None


def squeezed(text):
    """The text with single blanks, and where each of its letters stands in the text as it is."""
    out, places, blank = [], [], True
    for at, letter in enumerate(text):
        if letter.isspace():
            if not blank:
                out.append(" ")
                places.append(at)
            blank = True
        else:
            out.append(letter)
            places.append(at)
            blank = False
    return "".join(out).rstrip(), places


class Pair:
    """A file at LANDED and now, and how the tokens of the one answer to those of the other."""

    def __init__(self, path, now_path):
        self.old, self.new = landed(path), open(os.path.join(TOP, now_path), encoding="utf-8").read()
        self.flat, self.places = squeezed(self.old)
        self.was, self.now = tokens(self.old), tokens(self.new)
        matcher = difflib.SequenceMatcher(None, [t[0] for t in self.was], [t[0] for t in self.now], autojunk=False)
        self.to = {}
        for a, b, n in matcher.get_matching_blocks():
            for i in range(n):
                self.to[a + i] = b + i

    def placed(self, quote):
        """The lines of today's text that answer to the quoted ones, and the share of tokens that have an answer there; None where the quote did not stand."""
        flat = " ".join(quote.split())
        at = self.flat.find(flat)
        if at < 0:
            return None
        start, end = self.places[at], self.places[at + len(flat) - 1] + 1
        inside = [i for i, (_, a, b) in enumerate(self.was) if a >= start and b <= end]
        found = [self.to[i] for i in inside if i in self.to]
        if not found:
            return None
        a, b = self.now[min(found)][1], self.now[max(found)][2]
        return self.lines(a, b), len(found) / len(inside)

    def lines(self, a, b):
        first = self.new.rfind("\n", 0, a) + 1
        last = self.new.find("\n", b)
        return self.new[first:last if last >= 0 else len(self.new)]


def dedented(text):
    lines = text.split("\n")
    by = min((len(line) - len(line.lstrip()) for line in lines if line.strip()), default=0)
    return "\n".join(line[by:] for line in lines)


def main(words):
    text, pairs, lost, unsure, changed = open(PAGE, encoding="utf-8").read(), {}, [], [], 0
    then = [(path, quote) for _, path, quote, _ in BLOCK.findall(landed("docs/TRACE.md"))]
    if len(then) != len(BLOCK.findall(text)):
        sys.exit("docs/TRACE.md has other blocks than it had at LANDED")
    numbered = iter(then)

    def block(m):
        nonlocal changed
        head, path, quote, tail = m.groups()
        old_path, old_quote = next(numbered)
        file = os.path.join(TOP, path)
        if not os.path.exists(file):
            lost.append(f"there is no {path}")
            return m.group()
        if " ".join(quote.split()) in " ".join(open(file, encoding="utf-8").read().split()):
            return m.group()
        key = (old_path, path)
        if key not in pairs:
            pairs[key] = Pair(*key)
        place = pairs[key].placed(old_quote)
        if place is None:
            lost.append(f"{path}: {' '.join(old_quote.split())[:100]}")
            return m.group()
        new, share = dedented(place[0]), place[1]
        by = len(old_quote) - len(old_quote.lstrip(" "))
        if by:
            new = "\n".join(" " * by + line for line in new.split("\n"))
        if share < 0.9 or not 0.6 < len(new) / len(old_quote) < 1.5:
            unsure.append(f"{path} ({share:.2f}, {len(old_quote)} -> {len(new)}): {' '.join(old_quote.split())[:100]}")
        if "--show" in words:
            print(f"== {path}\n{old_quote}\n--\n{new}\n")
        changed += 1
        return head + new + tail

    text = BLOCK.sub(block, text)
    open(PAGE, "w", encoding="utf-8").write(text)
    for line in lost:
        print("not placed:", line)
    for line in unsure:
        print("less sure:", line)
    print(f"TRACE.md: {changed} blocks rewritten, {len(lost)} not placed")
    return 1 if lost else 0


if __name__ == "__main__":
    sys.exit(main(sys.argv[1:]))
