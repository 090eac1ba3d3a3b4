#!/usr/bin/env python3
"""picture.py            draws the crates and what they use, from the sources, into docs/plots/house.svg
picture.py --check    fails where that file is not what would be drawn now

A crate stands one row above the highest crate that it uses. An arrow that follows from others is left out: a use by code from uses by code, one
by definition from uses by code or definition, one by proof alone from any."""
import sys
from functools import lru_cache

from sources import KINDS, PARTS, TOP, crates, files, uses

FILE = TOP / "docs" / "plots" / "house.svg"
COLOUR = {"code": "#1d4f91", "definition": "#2e8b57", "proof": "#c77700"}
DASH = {"code": "", "definition": "7 3", "proof": "2 3"}
HEAD = 'viewBox="0 0 8 8" refX="7" refY="4" markerWidth="8" markerHeight="8" markerUnits="userSpaceOnUse" orient="auto"'
SHADES = ["#f9fafb", "#f4f6f9"]
TINT = {"src": "#8fb3e0", "specs": "#9bd3b0", "proofs": "#f0c98a"}
SAYS = {"code": "its code calls or holds it", "definition": "its contracts or definitions name it", "proof": "its proofs alone name it"}
BOX, HEIGHT, GAP, LANE, ROW, MARGIN = 148, 46, 26, 14, 116, 40


class House:
    def __init__(self):
        self.names, self.uses = crates(), uses()
        self.lines = {c: {part: sum(len(f.read_text(encoding="utf-8").splitlines()) for f in files(c, part)) for part in PARTS} for c in self.names}
        self.level = lru_cache(None)(lambda c: 1 + max((self.level(d) for d in self.uses[c]), default=-1))
        self.arrows = [(c, d) for c in self.names for d in sorted(self.uses[c], key=self.names.index) if not self.follows(c, d)]

    def follows(self, c, d):
        """Whether another way leads from c to d, every step of it as strong as the use itself."""
        strength = KINDS.index(self.uses[c][d])
        seen, todo = set(), [(c, e) for e in self.uses[c] if e != d]
        while todo:
            a, b = todo.pop()
            if KINDS.index(self.uses[a][b]) <= strength and b not in seen:
                if b == d:
                    return True
                seen.add(b)
                todo += [(b, e) for e in self.uses[b]]
        return False


class Layout:
    """Rows of crates, and a lane in each row that an arrow passes. Ordered for few crossings, then placed for short arrows."""

    def __init__(self, house):
        self.house = house
        self.rows = [[c for c in house.names if house.level(c) == n] for n in range(1 + max(map(house.level, house.names)))]
        self.paths = []
        for c, d in house.arrows:
            lanes = [(c, d, n) for n in range(house.level(c) - 1, house.level(d), -1)]
            for lane in lanes:
                self.rows[lane[2]].append(lane)
            self.paths.append([c, *lanes, d])
        self.links = [(a, b) for path in self.paths for a, b in zip(path, path[1:])]
        self.down, self.up = {}, {}
        for a, b in self.links:
            self.down.setdefault(a, []).append(b)
            self.up.setdefault(b, []).append(a)
        self.order()
        self.place()

    def crossings(self, n):
        """Between row n and the row below it."""
        spot = {v: i for row in self.rows[n - 1:n + 1] for i, v in enumerate(row)}
        pairs = sorted((spot[a], spot[b]) for a in self.rows[n] for b in self.down.get(a, []))
        return sum(b > d for i, (a, b) in enumerate(pairs) for c, d in pairs[i + 1:] if a < c)

    def order(self):
        height = len(self.rows)
        total = lambda: sum(map(self.crossings, range(1, height)))
        best, least = [row[:] for row in self.rows], total()
        for sweep in range(40):
            downward = sweep % 2 == 0
            for n in range(1, height) if downward else range(height - 2, -1, -1):
                other, beside = self.rows[n - 1 if downward else n + 1], self.down if downward else self.up
                spot = {v: i / max(1, len(other) - 1) for i, v in enumerate(other)}
                own = {v: i / max(1, len(self.rows[n]) - 1) for i, v in enumerate(self.rows[n])}
                middle = lambda v: sum(spot[w] for w in beside[v]) / len(beside[v]) if beside.get(v) else own[v]
                self.rows[n].sort(key=middle)
            self.exchange()
            if total() < least:
                best, least = [row[:] for row in self.rows], total()
        self.rows = best

    def exchange(self):
        """Neighbours change places as long as that takes a crossing away."""
        better = True
        while better:
            better = False
            for n, row in enumerate(self.rows):
                near = lambda: sum(self.crossings(m) for m in (n, n + 1) if 0 < m < len(self.rows))
                for i in range(len(row) - 1):
                    before = near()
                    row[i], row[i + 1] = row[i + 1], row[i]
                    if near() < before:
                        better = True
                    else:
                        row[i], row[i + 1] = row[i + 1], row[i]

    def place(self):
        wide = lambda v: BOX if isinstance(v, str) else LANE
        self.x = {}
        for row in self.rows:
            at = 0
            for v in row:
                self.x[v] = at + wide(v) / 2
                at += wide(v) + GAP
        for turn in range(60):
            for row in self.rows if turn % 2 else self.rows[::-1]:
                wish, weight, apart = [], [], [0]
                for i, v in enumerate(row):
                    near = self.down.get(v, []) + self.up.get(v, [])
                    wish.append(sum(self.x[w] for w in near) / len(near) if near else self.x[v])
                    weight.append(1 if isinstance(v, str) else 3)
                    if i:
                        apart.append(apart[-1] + (wide(row[i - 1]) + wide(v)) / 2 + (GAP if isinstance(v, str) or isinstance(row[i - 1], str) else 8))
                for v, x in zip(row, spread(wish, weight, apart)):
                    self.x[v] = x
        left = min(self.x[v] - wide(v) / 2 for row in self.rows for v in row)
        self.x = {v: round(x - left + MARGIN + 30) for v, x in self.x.items()}
        self.width = max(self.x[v] + wide(v) // 2 for row in self.rows for v in row) + MARGIN
        self.y = {v: MARGIN + 30 + (len(self.rows) - 1 - n) * ROW for n, row in enumerate(self.rows) for v in row}
        self.height = MARGIN + 30 + (len(self.rows) - 1) * ROW + HEIGHT


def spread(wish, weight, apart):
    """The places nearest to the wishes that stand at least so far apart: neighbours that would be too close are moved as one."""
    blocks = []
    for i in range(len(wish)):
        block = [(wish[i] - apart[i]) * weight[i], weight[i], 1]
        while blocks and blocks[-1][0] / blocks[-1][1] >= block[0] / block[1]:
            last = blocks.pop()
            block = [last[k] + block[k] for k in range(3)]
        blocks.append(block)
    places = [total / weights for total, weights, count in blocks for _ in range(count)]
    return [p + a for p, a in zip(places, apart)]


def ports(layout):
    """Where each arrow leaves its box and meets the other, side by side in the order of the places that it comes from or goes to."""
    ends = {}
    for path in layout.paths:
        ends.setdefault((path[0], "leaves"), []).append((layout.x[path[1]], tuple(map(str, path))))
        ends.setdefault((path[-1], "meets"), []).append((layout.x[path[-2]], tuple(map(str, path))))
    found = {}
    for (v, side), paths in ends.items():
        step = min(16, (BOX - 24) / max(1, len(paths) - 1))
        for i, (_, path) in enumerate(sorted(paths)):
            found[side, path] = round(layout.x[v] + (i - (len(paths) - 1) / 2) * step)
    return found


def svg(house):
    layout = Layout(house)
    port = ports(layout)
    foot = layout.height + 30
    width, height = max(layout.width, 900), foot + 96
    out = [
        f'<svg xmlns="http://www.w3.org/2000/svg" width="{width}" height="{height}" viewBox="0 0 {width} {height}" font-family="Helvetica, Arial, sans-serif">',
        f'<rect width="{width}" height="{height}" fill="white"/>',
        "<defs>",
        *(f'<marker id="{kind}" {HEAD}><path d="M0 0.5 L8 4 L0 7.5 z" fill="{COLOUR[kind]}"/></marker>' for kind in KINDS),
        "</defs>",
        f'<text x="{MARGIN}" y="{MARGIN}" font-size="17" font-weight="bold" fill="#222">The crates and what they use</text>',
    ]
    for n, row in enumerate(layout.rows):
        y, shade = layout.y[row[0]], SHADES[n % 2]
        out.append(f'<rect x="{MARGIN - 14}" y="{y - 12}" width="{width - 2 * MARGIN + 28}" height="{HEIGHT + 24}" rx="6" fill="{shade}"/>')
        out.append(f'<text x="{MARGIN}" y="{y + HEIGHT / 2 + 6:g}" font-size="17" fill="#9aa3ad" text-anchor="middle">{n}</text>')
    for kind in reversed(KINDS):
        for path in layout.paths:
            if house.uses[path[0]][path[-1]] != kind:
                continue
            name = tuple(map(str, path))
            x, y = port["leaves", name], layout.y[path[0]] + HEIGHT
            line = f"M{x} {y}"
            for v in path[1:]:
                last = v is path[-1]
                to, top = (port["meets", name] if last else layout.x[v]), layout.y[v] - (2 if last else 6)
                line += f" C{x} {(y + top) / 2:g} {to} {(y + top) / 2:g} {to} {top}"
                if not last:
                    line += f" V{layout.y[v] + HEIGHT + 6}"
                x, y = to, layout.y[v] + HEIGHT + 6
            dash = f' stroke-dasharray="{DASH[kind]}"' if DASH[kind] else ""
            out.append(f'<path d="{line}" fill="none" stroke="{COLOUR[kind]}" stroke-width="1.4"{dash} marker-end="url(#{kind})"/>')
    for c in house.names:
        x, y = layout.x[c] - BOX // 2, layout.y[c]
        out.append(f'<rect x="{x}" y="{y}" width="{BOX}" height="{HEIGHT}" rx="4" fill="white" stroke="#555" stroke-width="1"/>')
        out.append(f'<text x="{layout.x[c]}" y="{y + 18}" font-size="13" font-weight="bold" fill="#111" text-anchor="middle">{c}</text>')
        out.append(f'<text x="{layout.x[c]}" y="{y + 33}" font-size="11" fill="#444" text-anchor="middle">{spelled(house.lines[c])}</text>')
        out += bar(x + 6, y + 39, BOX - 12, house.lines[c])
    at = MARGIN
    for kind in KINDS:
        dash = f' stroke-dasharray="{DASH[kind]}"' if DASH[kind] else ""
        out.append(f'<path d="M{at} {foot + 20} H{at + 40}" fill="none" stroke="{COLOUR[kind]}" stroke-width="1.4"{dash} marker-end="url(#{kind})"/>')
        out.append(f'<text x="{at + 48}" y="{foot + 24}" font-size="12" fill="#222">{SAYS[kind]}</text>')
        at += 78 + 6 * len(SAYS[kind])
    at = MARGIN
    out.append(f'<text x="{at}" y="{foot + 50}" font-size="12" fill="#222">In a box: lines of</text>')
    at += 106
    for part in PARTS:
        out.append(f'<rect x="{at}" y="{foot + 41}" width="12" height="9" fill="{TINT[part]}"/>')
        out.append(f'<text x="{at + 17}" y="{foot + 50}" font-size="12" fill="#222">{part}</text>')
        at += 32 + 8 * len(part)
    total = {part: sum(house.lines[c][part] for c in house.names) for part in PARTS}
    words = f"{len(house.names)} crates, {spelled(total)} lines in all. A number at the left: how many rows of crates lie below."
    words += " Arrows that follow from others are left out."
    out.append(f'<text x="{MARGIN}" y="{foot + 76}" font-size="12" fill="#222">{words}</text>')
    return "\n".join([*out, "</svg>"]) + "\n"


def spelled(lines):
    return " · ".join(f"{n:,}" for n in lines.values())


def bar(x, y, width, lines):
    """The three kinds of lines as shares of a bar."""
    at, total, out = 0, max(1, sum(lines.values())), []
    for part, n in lines.items():
        share = round(width * n / total)
        if part == "proofs":
            share = width - at
        if share:
            out.append(f'<rect x="{x + at}" y="{y}" width="{share}" height="3" fill="{TINT[part]}"/>')
        at += share
    return out


def main(words):
    if words not in ([], ["--check"]):
        sys.exit(__doc__)
    want = svg(House())
    if not words:
        FILE.write_text(want, encoding="utf-8")
    elif not FILE.exists() or FILE.read_text(encoding="utf-8") != want:
        print(f"{FILE.relative_to(TOP)}: the sources are others now; draw it anew: tools/house/picture.py")
        return 1
    return 0


if __name__ == "__main__":
    sys.exit(main(sys.argv[1:]))
