#!/usr/bin/env python3
"""way.py [--summary]         every function that a K frame may meet, and an I frame: each under the one that calls it, with its file, its
                           line and its depth, read from the sources; or the totals alone
way.py --run [--summary]   the same for what one frame of each kind, K and I of orders 0 and 1 at z = 1, meets when it is run
way.py --write PAGE        writes the blocks of PAGE anew
way.py --check PAGE        fails where a block of PAGE is not what --write would write, or where PAGE names a file that is not there

A way begins at the frame program. What a frame may meet is every call that stands in a body, but for the arms of a match that belong to the
other kind, and for the other kind's entry point. A function is counted once and opened where it is met first. It is as deep as the longest
chain of calls that leads to it, or, in a run, as the deepest one seen; the first function is 1 deep. The line begins with what the
program calls outside its own crate and crate splitting.

A block of a page stands between fences behind a mark. <!-- way K FUNCTION.. --> holds what the run of the K frame meets from these functions
on, each named by the end of its path, enough to tell it; what has a block of its own, or stands above, is named and not opened.
<!-- way totals --> has the totals. Every function that the runs meet stands in a block."""
import re
import sys
from functools import lru_cache

from functions import House
from run import calls_of
from sources import TOP

PROGRAM = "lichenoar::main"
SPLITTER = "splitting"
ENTRY = {"K": "bessel::k::k", "I": "bessel::i::i"}
FRAME = {"K": "0100000200000000000000003FF00000000000000000000000000000", "I": "0200000200000000000000003FF00000000000000000000000000000"}


class Way:
    """The calls from one function on: calls(f) has what f calls, in order; depth(f), where it is known, the deepest chain seen."""

    def __init__(self, title, start, calls, depth=None):
        self.title, self.start, self.calls = title, start, calls
        done, running = [], []

        def visit(f):
            if f not in done and f not in running:
                running.append(f)
                for g in calls(f):
                    visit(g)
                done.append(running.pop())

        visit(start)
        self.functions = done[::-1]
        self.depth = depth or {start: 1}
        if not depth:
            for n, f in enumerate(self.functions):
                for g in set(calls(f)) & set(self.functions[n:]):
                    self.depth[g] = max(self.depth.get(g, 0), self.depth[f] + 1)

    def totals(self):
        """From the first function on, and from the line on: from what the program calls outside its own crate and the one that splits lines."""
        own = (self.start.module.crate, SPLITTER)
        below = []
        for f in self.functions:
            if f.module.crate in own:
                below += [g for g in self.calls(f) if g.module.crate not in own and g not in below]
        first = min(self.depth[f] for f in below)
        for f in below:
            below += [g for g in self.calls(f) if g not in below]
        crates = {f.module.crate for f in self.functions}
        return (
            f"{self.title}: {len(self.functions)} functions in {len(crates)} crates, {max(self.depth.values())} deep; "
            f"from the line on {len(below)}, {max(self.depth[f] for f in below) - first + 1} deep"
        )

    def rows(self, roots, shown, own=frozenset()):
        """(indent, function, word) for what is reached from the roots, word saying where a function that is not opened here stands. `shown` grows.
        What was shown is opened again only where something below it was not."""
        out = []

        @lru_cache(None)
        def reached(f):
            return {f}.union(*(reached(g) for g in self.calls(f) if g not in own))

        def put(f, indent):
            word = "" if not indent else "below" if f in own - shown else "above" if f in own or reached(f) <= shown else ""
            out.append((indent, f, word))
            if not word:
                shown.add(f)
                for g in self.calls(f):
                    put(g, indent + 1)

        for f in roots:
            put(f, 0)
        return out


def listing(way, rows):
    width = max(2 * indent + len(f.shown) for indent, f, word in rows if not word) + 2
    full = lambda f, indent: f.shown.ljust(width - 2 * indent) + f"{f.place} ({way.depth[f]})"
    return "\n".join("  " * indent + (f"{f.shown} ({word})" if word else full(f, indent)) for indent, f, word in rows)


def short(rows, named):
    """As a page has it: the files alone, and of what stands above only what this way had not named. `named` grows."""
    kept = []
    for indent, f, word in rows:
        if word != "above" or f not in named:
            kept.append((indent, f, word))
        named.add(f)
    width = max(2 * indent + len(f.shown) for indent, f, word in kept) + 2
    return "\n".join("  " * indent + f.shown.ljust(width - 2 * indent) + (word or f.file) for indent, f, word in kept)


class Ways:
    def __init__(self, run):
        self.house = house = House()
        self.start = house.at[PROGRAM]
        self.may, self.met = {}, {}
        for kind in ENTRY:
            others = {other: house.at[path] for other, path in ENTRY.items() if other != kind}
            cases = tuple(f"Kind::{other}" for other in others)

            def calls(f, cases=cases, others=others):
                return [g for g in house.calls(f, cases) if g not in others.values()]

            self.may[kind] = Way(f"{kind}, what a frame may meet", self.start, calls)
        if run:
            for kind, (answer, calls) in zip(ENTRY, calls_of(house, self.start, [FRAME[kind] for kind in ENTRY])):
                self.met[kind] = self.of_run(kind, answer, calls)

    def of_run(self, kind, answer, calls):
        if not answer.startswith("00"):
            sys.exit(f"way.py: the {kind} frame was refused: {answer}")
        below, depth = {}, {}
        for caller, f, deep in calls:
            if caller and f not in self.house.calls(caller):
                sys.exit(f"way.py: {caller.place} calls {f.path}, which was not read there")
            below.setdefault(caller, []).append(f)
            depth[f] = max(depth.get(f, 0), deep)
        return Way(f"{kind}, what the frame {FRAME[kind]} meets", self.start, lambda f: below.get(f, []), depth)

    def totals(self):
        return "\n".join(way.totals() for way in [*self.met.values(), *self.may.values()])

    def page(self, text):
        """The page with every block written anew."""
        mark = re.compile(r"(<!-- way ([^\n]*?) -->\n```\n)(.*?)(```\n)", re.S)
        own, named, shown = {kind: set() for kind in ENTRY}, {kind: set() for kind in ENTRY}, set()

        def roots(kind, names):
            found = []
            for name in names:
                like = [f for f in self.met[kind].functions if ("::" + f.path).endswith("::" + name)]
                if len(like) != 1:
                    sys.exit(f"way.py: the {kind} frame meets {len(like)} functions named {name}: {' '.join(f.path for f in like)}")
                found += like
            return found

        for m in mark.finditer(text):
            kind, *names = m.group(2).split()
            if kind in ENTRY:
                own[kind].update(roots(kind, names))

        def block(m):
            kind, *names = m.group(2).split()
            if kind == "totals":
                body = self.totals()
            else:
                body = short(self.met[kind].rows(roots(kind, names), shown, own[kind]), named[kind])
            return m.group(1) + body + "\n" + m.group(4)

        text = mark.sub(block, text)
        for kind, way in self.met.items():
            left = [f.path for f in way.functions if f not in shown]
            if own[kind] and left:
                sys.exit(f"way.py: in no block of the {kind} frame: {' '.join(left)}")
        return text


def main(words):
    if len(words) == 2 and words[0] in ("--write", "--check"):
        page = words[1]
        have = open(page, encoding="utf-8").read()
        want = Ways(run=True).page(have)
        if words[0] == "--write":
            open(page, "w", encoding="utf-8").write(want)
            return 0
        files = sorted(set(re.findall(r"\b(?:crates|tools|docs)/[\w/.-]*\w", have)))
        bad = [f"{page}: there is no {name}" for name in files if not (TOP / name).exists()]
        if have != want:
            lines = zip(have.splitlines() + [""], want.splitlines() + [""])
            at = next((n for n, (old, new) in enumerate(lines, 1) if old != new), 1)
            bad.append(f"{page}:{at}: the way is another now; tools/house/way.py --write {page}")
        print("\n".join(bad or [f"{page}: its ways are those of the sources"]))
        return 1 if bad else 0
    if set(words) - {"--run", "--summary"}:
        sys.exit(__doc__)
    ways = Ways(run="--run" in words)
    for way in (ways.met or ways.may).values():
        print(way.totals() + ("" if "--summary" in words else "\n\n" + listing(way, way.rows([way.start], set())) + "\n"))
    return 0


if __name__ == "__main__":
    sys.exit(main(sys.argv[1:]))
