#!/bin/sh
# Shell first: Python cannot start where standard input is a directory.
''':'
[ ! -d /dev/stdin ] || exec python3 "$0" "$@" < /dev/null
exec python3 "$0" "$@"
'''
import cmath
import math
import re
import struct
import subprocess
from decimal import Decimal
from fractions import Fraction
from itertools import groupby
from typing import NamedTuple
from xml.sax.saxutils import escape

from ask import RUN
from frame import ASKING, KINDS, Wrong, answer, decimal, ended, lost, number, put, refused, say, value_of, visible, word_of
from show import counted, known

USAGE = """usage: tools/frames/picture.py ASKED ANSWERED [options] > FILE.svg
       tools/frames/picture.py ASKED --ask [options] > FILE.svg
Draws one entry of a sweep, modulus above and angle below, from its asking frames and the answer lines of ./run, a file each.
  --ask          passes the frames of ASKED through ./run itself
  --over OTHER   with --ask: draws the plain function over ASKED divided by that over OTHER, another file of as many frames, point by
                 point. Division and scaling back are done here, in f64, and nothing is proved of them
  --entry K      which entry of each answer: 0, the first order, where it is left out
  --along WHAT   the horizontal axis: re, im or modulus of the argument z, or point, the number of the point, from 0.
                 Where it is left out: re or im, whichever alone moves, else point
  --factor F     the horizontal axis in units of your own: F times what --along names ..
  --power P      .. to the power P
  --label TEXT   the words under the horizontal axis
  --title TEXT   the words above the picture
  --wrap         leaves each angle from -180 to 180. Otherwise it is unwrapped: no step from one point to the next is above half a turn,
                 which is a guess where the points are far apart, and begins anew behind a gap
A refused point is a gap in both curves, a grey band with the refusal's number at its foot; so is a value of 0, which has no angle and no
logarithm, and one that is not finished. A scaled answer is drawn as it is, scaled. The modulus has a logarithmic axis where it spans more
than two decades, and a horizontal axis with --power has one where it spans more than one; it is said there. No axis spans less than a
millionth of its values, nor the angle's less than a thousandth of a degree. All frames must be of one kind, scaling and first order. ASKED
may be /dev/stdin.
Status: 0 drawn, 1 the lines do not make a sweep or something failed, 2 the words cannot be taken.
"""
ALONG = {"re": "re of z", "im": "im of z", "modulus": "modulus of z", "point": "number of the point, from 0"}
VALUED = ("--over", "--entry", "--along", "--factor", "--power", "--label", "--title")
OPTIONS = ("--ask", "--wrap", "--help", "-h")
LONGEST = 80

# pixels. DIGIT and LETTER are mean widths of a character over its height, of the widest of the fonts that are likely to be there.
WIDTH, PANEL, INSIDE, LINE, DIGIT, LETTER = 720, 180, 10, 17, 0.64, 0.57
BLUE, RED, INK, GRID, GAP = "#0072b2", "#b84a00", "#222222", "#d9d9d9", "#e6e6e6"
# the steps of an angle's ticks, as far as they are not 1, 2 or 5 times a power of ten
TURNS = (10, 15, 30, 45, 90, 180, 360, 720, 1800)
ZERO, OPEN, INFINITE = "zero", "not finished", "not finite"


class Point(NamedTuple):
    """A point of the sweep: its place along the horizontal axis, and its value, or else why it has none: a refusal's number or a word."""
    place: float
    value: complex
    why: object


# ---- the words
def asked(words):
    """The files, and the options by name."""
    files, options, words = [], {}, list(words)
    while words:
        word = words.pop(0)
        if word in VALUED or word in OPTIONS:
            if word in options:
                raise Wrong(f"{word} stands twice; see --help")
            if word in VALUED and not words:
                raise Wrong(f"{word}: what stands behind it is missing; see --help")
            options[word] = words.pop(0) if word in VALUED else True
        elif word.startswith("-"):
            raise Wrong(f"{visible(word)} is no word of picture; see --help")
        else:
            files.append(word)
    wanted = ("the file of the frames",) if "--ask" in options else ("the file of the frames", "the file of the answers")
    if len(files) < len(wanted):
        raise Wrong(f"{', '.join(wanted[len(files):])}: missing; see --help")
    if len(files) > len(wanted):
        raise Wrong(f"{visible(files[len(wanted)])}: one file too many{' with --ask' if '--ask' in options else ''}; see --help")
    if "--over" in options and "--ask" not in options:
        raise Wrong("--over goes with --ask alone; see --help")
    return files, checked(options)


def checked(options):
    entry = options.get("--entry", "0")
    if not re.fullmatch("[0-9]{1,9}", entry) or int(entry) > 511:
        raise Wrong(f"the entry: {visible(entry)} is none; write 0 to 511")
    if options.get("--along", "re") not in ALONG:
        raise Wrong(f"--along: {visible(options['--along'])} is none; write {', '.join(ALONG)}")
    for name in ("--factor", "--power"):
        value = value_of(number(name, options.get(name, "1")))
        if not math.isfinite(value) or not value:
            raise Wrong(f"{name}: {visible(options[name])} makes no axis; write a number other than 0")
        options[name] = value
    for name in ("--label", "--title"):
        text = options.get(name, "as given")
        if not text.strip() or not text.isprintable():
            raise Wrong(f"{name}: {visible(text)} cannot be drawn; write a line of text")
        if len(text) > LONGEST:
            raise Wrong(f"{name}: {visible(text)} has {len(text)} characters; write {LONGEST} at most")
    return dict(options, **{"--entry": int(entry)})


# ---- the lines
def lines_of(name):
    try:
        with open(name, "rb") as file:
            return split(file.read())
    except (OSError, ValueError) as wrong:
        raise Wrong(f"{visible(name)} cannot be read: {getattr(wrong, 'strerror', None) or wrong}") from None


def split(data):
    """The lines of an input; the last may lack its newline."""
    lines = data.split(b"\n")
    return lines if lines[-1] else lines[:-1]


def fields_of(line):
    """Kind, scaling, count, order, re and im of an asking frame. Wrong where it is none."""
    if line.endswith(b"\r"):
        raise Wrong("it ends in a carriage return; take it away with tr -d '\\r'")
    if not re.fullmatch(rb"[0-9A-F]*", line):
        raise Wrong("a character of it is no upper-case hexadecimal digit")
    if len(line) == 92:
        raise Wrong("it has 92 digits, as the request of a sweep has: write the frames with sweep.py --frames")
    if len(line) != 2 * struct.calcsize(ASKING):
        raise Wrong(f"it has {len(line)} digits, not 56")
    fields = struct.unpack(ASKING, bytes.fromhex(line.decode("ascii")))
    if fields[0] not in KINDS.values() or fields[1] > 1:
        raise Wrong("its kind is not 01 or 02, or its scaling not 00 or 01")
    return fields


def read_each(lines, reads, name, what):
    """Each line read, and the one that cannot be told by its number."""
    for at, line in enumerate(lines, 1):
        try:
            yield reads(line)
        except Wrong as wrong:
            raise Wrong(f"{name}, line {at} is no {what}: {wrong}: {visible(line.decode('ascii', 'backslashreplace'))}") from None


def answers_of(lines):
    """The answer lines of ./run to frames."""
    try:
        done = subprocess.run([RUN], input=b"".join(line + b"\n" for line in lines), stdout=subprocess.PIPE, check=False)
    except OSError as wrong:
        raise Wrong(f"./run cannot be started: {wrong.strerror or wrong}") from None
    found = split(done.stdout)
    if done.returncode or len(found) != len(lines):
        raise Wrong(f"./run gave {counted(len(found), 'line')} for {counted(len(lines), 'frame')}, and ended with {done.returncode}")
    return found


def sweep_of(files, by_run):
    """Frame and answer of each point, read, and held to belong together."""
    lines = lines_of(files[0])
    names = visible(files[0]), "./run" if by_run else visible(files[1])
    frames = list(read_each(lines, fields_of, names[0], "asking frame"))
    if not frames:
        raise Wrong(f"{names[0]} has no frame")
    for at, fields in enumerate(frames, 1):
        for place, what in enumerate(("kind", "scaling", None, "first order")):
            if what and struct.pack(">d", fields[place]) != struct.pack(">d", frames[0][place]):
                raise Wrong(f"{names[0]}, line {at} has another {what} than line 1; a picture has one")
    answers = list(read_each(answers_of(lines) if by_run else lines_of(files[1]), answer, names[1], "answer line"))
    if len(answers) != len(frames):
        raise Wrong(f"{names[0]} has {counted(len(frames), 'frame')} and {names[1]} {counted(len(answers), 'answer')}: they do not belong together")
    for at, (fields, (record, pairs)) in enumerate(zip(frames, answers), 1):
        if not record[0] and len(pairs) != fields[2]:
            raise Wrong(f"line {at}: {names[0]} asks for {counted(fields[2], 'order')} and {names[1]} has {len(pairs)}: they do not belong together")
    return frames, answers


# ---- the points
def moving(frames):
    """re or im, where that part alone is not the same at every point; else point."""
    moves = [name for name, place in (("re", 4), ("im", 5)) if len({fields[place] for fields in frames}) > 1]
    return moves[0] if len(moves) == 1 else "point"


def placed(at, fields, along, factor, power):
    """The place of a point along the horizontal axis."""
    part = {"re": fields[4], "im": fields[5], "modulus": math.hypot(*fields[4:]), "point": float(at)}[along]
    if not math.isfinite(part):
        raise Wrong(f"point {at}: its {along} is {word_of(part)}, which has no place on an axis; try --along point")
    try:
        place = factor * part ** power
    except (ZeroDivisionError, OverflowError):
        place = math.inf
    if isinstance(place, complex) or not math.isfinite(place):
        text = f"{decimal(factor)} times {decimal(part)} to the power {decimal(power)}"
        raise Wrong(f"point {at}: {text} has no place on an axis; take another --power or --along")
    return place


def judged(value):
    """A value that can be drawn, or why it cannot."""
    if cmath.isnan(value):
        return None, OPEN
    if math.isinf(math.hypot(value.real, value.imag)):
        return None, INFINITE
    return (value, None) if value else (None, ZERO)


def values_of(answers, entry):
    """The value of an entry at each point, or why there is none."""
    for at, (record, pairs) in enumerate(answers):
        if not record[0] and entry >= len(pairs):
            raise Wrong(f"point {at} has {counted(len(pairs), 'entry').replace('entrys', 'entries')}, so none of number {entry}, counted from 0")
        yield (None, record[0]) if record[0] else judged(complex(*pairs[entry]))


def ratio(one, other, fields, under):
    """The ratio of two values, both scaled back where they are scaled: K is e^-z times what was answered, I is e^re times it."""
    if one[1] is not None or other[1] is not None:
        return None, other[1] if one[1] is None else one[1]
    back = complex(*under[4:]) - complex(*fields[4:]) if fields[0] == KINDS["K"] else fields[4] - under[4]
    try:
        value = one[0] / other[0] * cmath.exp(back if fields[1] else 0)
    except OverflowError:
        return None, INFINITE
    return (None, INFINITE) if cmath.isnan(value) else judged(value)


def points_of(frames, values, along, options):
    return [Point(placed(at, fields, along, options["--factor"], options["--power"]), *value) for at, (fields, value) in enumerate(zip(frames, values))]


def runs(points):
    """The places in the list of neighbouring points, all with values or all without for one reason, and the reason."""
    return [(why, [at for at, _ in group]) for why, group in groupby(enumerate(points), lambda one: one[1].why)]


def angles_of(points, wrap):
    """The angle in degrees of each point with a value."""
    angles = {}
    for why, places in runs(points):
        for at in places if why is None else ():
            angle = math.degrees(cmath.phase(points[at].value))
            if not wrap and at - 1 in angles:
                angle += 360 * round((angles[at - 1] - angle) / 360)
            angles[at] = angle
    return angles


# ---- axes
def power_of_ten(value):
    """The largest power of ten that is not above a positive fraction, by its exponent."""
    exponent = math.floor(math.log10(value.numerator) - math.log10(value.denominator))
    while Fraction(10) ** exponent > value:
        exponent -= 1
    while Fraction(10) ** (exponent + 1) <= value:
        exponent += 1
    return exponent


def texts(values, exponent):
    """The labels of ticks, which are whole multiples of ten to the exponent: all plain, or all with an e where one would be long."""
    if all(not value or Fraction(1, 10000) <= abs(value) < 10**6 for value in values):
        return [f"{Decimal(int(value / Fraction(10) ** exponent)).scaleb(exponent):.{max(0, -exponent)}f}" for value in values]
    return [e_text(int(value / Fraction(10) ** exponent), exponent) for value in values]


def e_text(whole, exponent):
    """whole times ten to the exponent, as 1.5e-7."""
    if not whole:
        return "0"
    figures = str(abs(whole)).rstrip("0")
    exponent += len(str(abs(whole))) - 1
    return ("-" if whole < 0 else "") + figures[0] + ("." + figures[1:] if figures[1:] else "") + (f"e{exponent}" if exponent else "")


class Linear:
    """From the least value to the largest, in exact fractions, so that no value is too large or too small for it."""

    def __init__(self, values, least=Fraction(0), steps=(), whole=False):
        low, high = Fraction(min(values)), Fraction(max(values))
        size = max(abs(low), abs(high))
        least = max(least, (size / 5 or Fraction(2)) if low == high else size / 10**6)
        if high - low < least:
            low, high = (low + high - least) / 2, (low + high + least) / 2
        self.low, self.span, self.steps, self.whole = low, high - low, steps, whole

    def place(self, value):
        return float((Fraction(value) - self.low) / self.span)

    def step(self, most):
        """The smallest round step by which there are no more than so many ticks, and the power of ten that it is a multiple of."""
        finest = power_of_ten(self.span / most)
        for exponent in range(max(0, finest) if self.whole else finest, max(0, power_of_ten(self.span)) + 3):
            for times in (1, 2, 5):
                step = times * Fraction(10) ** exponent
                if step >= 10 and self.steps:
                    step = next((one for one in self.steps if self.span / one <= most), step)
                    if step in self.steps:
                        return Fraction(step), 0
                if self.span / step <= most:
                    return step, exponent
        raise AssertionError("a step as long as the axis is among them")

    def ticks(self, most):
        step, exponent = self.step(most)
        values = [step * times for times in range(math.ceil(self.low / step), math.floor((self.low + self.span) / step) + 1)]
        return list(zip(map(self.place, values), texts(values, exponent)))


class Logarithmic:
    """The same over the logarithms of positive values."""

    def __init__(self, values):
        self.low = math.log10(min(values))
        self.span = math.log10(max(values)) - self.low

    def place(self, value):
        return (math.log10(value) - self.low) / self.span

    def ticks(self, most):
        """Powers of ten; where these are few, 2 and 5 times them too."""
        low, high = self.low, self.low + self.span
        step = next(step for step in (1, 2, 5, 10, 20, 50, 100, 200, 500) if self.span / step <= most)
        times = (1, 2, 5) if 3 * self.span <= most else (1,)
        found = [(exponent, one) for exponent in range(math.floor(low / step) * step, math.ceil(high) + 1, step) for one in times]
        found = [(exponent, one) for exponent, one in found if low - 1e-9 <= exponent + math.log10(one) <= high + 1e-9]
        plain = all(-4 <= exponent < 6 for exponent, _ in found)
        labels = [f"{Decimal(one).scaleb(exponent):f}" if plain else f"{one}e{exponent}" for exponent, one in found]
        return [((exponent + math.log10(one) - low) / self.span, label) for (exponent, one), label in zip(found, labels)]


def wide(values, times):
    """Whether values are positive, and the largest is more than so many times the least."""
    return min(values) > 0 and Fraction(max(values)) > times * Fraction(min(values))


def along_axis(points, along, options):
    """The horizontal axis."""
    places = [point.place for point in points]
    if options["--power"] != 1 and wide(places, 10):
        return Logarithmic(places)
    return Linear(places, whole=along == "point" and options["--factor"] == options["--power"] == 1)


def fitting(axis, width, size):
    """As many ticks of a horizontal axis as do not touch each other."""
    for most in range(9, 0, -1):
        ticks = axis.ticks(most)
        ends = [(at * width - size * DIGIT * len(text) / 2, at * width + size * DIGIT * len(text) / 2) for at, text in ticks]
        if all(one[1] + size <= other[0] for one, other in zip(ends, ends[1:])):
            return ticks
    return ticks[:1]


# ---- the drawing
def folded(text, size, width):
    """The text in lines that are not wider than so many pixels."""
    lines, most = [""], int(width / (size * LETTER))
    for word in text.split():
        if lines[-1] and len(lines[-1]) + 1 + len(word) > most:
            lines.append("")
        lines[-1] += (" " if lines[-1] else "") + word
    return lines


def text_at(x, y, text, size, more=""):
    return f'<text x="{x:.1f}" y="{y:.1f}" font-size="{size}"{more}>{escape(text)}</text>'


class Sheet:
    """What is drawn, and how far down it is drawn."""

    def __init__(self):
        self.parts, self.down = [], 10

    def words(self, text, size, left, more=""):
        for line in folded(text, size, WIDTH - left - 16):
            self.down += size + 5
            self.parts.append(text_at(left, self.down, line, size, more))


class Panel(NamedTuple):
    """One of the two plots."""
    name: str
    heading: str
    colour: str
    axis: object
    heights: dict


def curve(points, panel, across, upward, wrapped):
    """The runs of points with values, each a line of its own, and dots where they are few or alone."""
    out, dots = [], []
    for why, places in runs(points):
        if why is not None:
            continue
        pieces = [[places[0]]]
        for at in places[1:]:
            if wrapped and abs(panel.heights[at] - panel.heights[at - 1]) > 180:
                pieces.append([])
            pieces[-1].append(at)
        for piece in pieces:
            path = " ".join(f"{across(points[at].place):.2f},{upward(panel.heights[at]):.2f}" for at in piece)
            out.append(f'<polyline class="{panel.name}" fill="none" stroke="{panel.colour}" stroke-width="1.6" stroke-linejoin="round" points="{path}"/>')
            dots += piece if len(points) <= 100 or len(piece) == 1 else []
    for at in dots:
        x, y = across(points[at].place), upward(panel.heights[at])
        out.append(f'<circle class="{panel.name}" cx="{x:.2f}" cy="{y:.2f}" r="2.2" fill="{panel.colour}"/>')
    return out


def bands(points, across, left, right):
    """From where to where each gap goes, halfway to its neighbours, and why."""
    found = []
    for why, places in runs(points):
        if why is None:
            continue
        here = [across(points[at].place) for at in places]
        for at, other in ((places[0], places[0] - 1), (places[-1], places[-1] + 1)):
            if 0 <= other < len(points):
                here.append((across(points[at].place) + across(points[other].place)) / 2)
        low, high = (max(left, min(here) - 1), min(right, max(here) + 1))
        if 0 in places:
            low, high = (left, high) if across(points[0].place) <= across(points[-1].place) else (low, right)
        if len(points) - 1 in places:
            low, high = (low, right) if across(points[0].place) <= across(points[-1].place) else (left, high)
        found.append((low, high, why))
    return found


def foot(low, high, why, bottom):
    """The mark on the axis below a gap: the refusal's number, a ring for 0, a cross for what is not finished or not finite."""
    x = (low + high) / 2
    if why == ZERO:
        return f'<circle class="mark" cx="{x:.2f}" cy="{bottom - 9:.1f}" r="4" fill="white" stroke="{INK}" stroke-width="1.5"/>'
    if why in (OPEN, INFINITE):
        return f'<path class="mark" d="M{x - 4:.2f} {bottom - 13:.1f}l8 8m0 -8l-8 8" fill="none" stroke="{INK}" stroke-width="1.5"/>'
    words = f"refusal {why}" if high - low > 90 else str(why)
    return text_at(x, bottom - 5, words, 12, f' class="mark" font-weight="bold" text-anchor="middle" fill="{INK}"')


def draw_panel(sheet, panel, points, across, left, ticks_along, wrapped):
    sheet.down += 24
    sheet.parts.append(text_at(left, sheet.down, panel.heading, 13, f' font-weight="bold" fill="{panel.colour}"'))
    top, right = sheet.down + 8, WIDTH - 16
    bottom = top + PANEL
    sheet.down = bottom

    def upward(value):
        return bottom - INSIDE - (PANEL - 2 * INSIDE) * panel.axis.place(value)

    sheet.parts.append(f'<g class="panel {panel.name}">')
    gaps = bands(points, across, left, right)
    for low, high, _ in gaps:
        sheet.parts.append(f'<rect class="gap" x="{low:.2f}" y="{top}" width="{high - low:.2f}" height="{PANEL}" fill="{GAP}"/>')
    for at, _ in ticks_along:
        sheet.parts.append(f'<path d="M{at:.2f} {top}V{bottom + 4}" stroke="{GRID}"/>')
    for at, label in panel.axis.ticks(8) if panel.axis else ():
        y = bottom - INSIDE - (PANEL - 2 * INSIDE) * at
        sheet.parts.append(f'<path d="M{left - 4} {y:.2f}H{right}" stroke="{GRID}"/>')
        sheet.parts.append(text_at(left - 7, y + 4, label, 12, f' class="tick" text-anchor="end" fill="{INK}"'))
    sheet.parts.append(f'<rect class="frame" x="{left}" y="{top}" width="{right - left}" height="{PANEL}" fill="none" stroke="{INK}"/>')
    if panel.axis:
        sheet.parts += curve(points, panel, across, upward, wrapped)
    else:
        sheet.parts.append(text_at((left + right) / 2, top + PANEL / 2, "no point has a value", 13, f' text-anchor="middle" fill="{INK}"'))
    end = -math.inf
    for low, high, why in gaps:
        half = 3 + 4 * len(str(why)) if isinstance(why, int) else 5
        if (low + high) / 2 - half > end:
            sheet.parts.append(foot(low, high, why, bottom))
            end = (low + high) / 2 + half
    sheet.parts.append("</g>")


def spoken(places):
    """Which points, in words."""
    if len(places) == 1:
        return f"point {places[0]}"
    if places[-1] - places[0] == len(places) - 1:
        return f"points {places[0]} to {places[-1]}"
    return f"{len(places)} points, the first of them {places[0]}"


def legend(points, meanings):
    """A line for each reason why points have no value."""
    by_why = {}
    for at, point in enumerate(points):
        if point.why is not None:
            by_why.setdefault(point.why, []).append(at)
    said = {ZERO: "ring: the value is 0, which has no angle", OPEN: "cross: the value is not finished", INFINITE: "cross: the value is not finite"}
    for why in sorted(by_why, key=lambda one: (isinstance(one, str), one)):
        yield f"{spoken(by_why[why])}: {said[why] if why in said else refused(why, meanings)}"


def short(value):
    """Six figures, for a heading."""
    return f"{value:.6g}"


def argument(fields):
    return f"{short(fields[4])} {'-' if math.copysign(1, fields[5]) < 0 else '+'} {short(abs(fields[5]))} i"


def stretch(frames):
    """From where to where a sweep goes, in words."""
    return f"from z = {argument(frames[0])} to z = {argument(frames[-1])}" if len(frames) > 1 else f"at z = {argument(frames[0])}"


def picture(frames, under, points, along, options, meanings):
    """The whole picture, as text; under is the sweep that was divided by, if any."""
    kind, scaling, _, order, *_ = frames[0]
    name = {number: letter for letter, number in KINDS.items()}[kind]
    function = f"{name} over {name}" if under else name + ({"K": " times e^z", "I": " times e^-re"}[name] if scaling else "")
    wrap = "--wrap" in options
    angles = angles_of(points, wrap)
    moduli = {at: abs(points[at].value) for at in angles}
    panels = []
    if angles:
        logarithmic = wide(moduli.values(), 100)
        modulus_axis = Logarithmic(moduli.values()) if logarithmic else Linear(moduli.values())
        panels.append(Panel("modulus", f"modulus of {function}{', logarithmic axis' if logarithmic else ''}", BLUE, modulus_axis, moduli))
        angle_axis = Linear((-180, 180) if wrap else angles.values(), Fraction(1, 1000), TURNS)
        panels.append(Panel("angle", f"angle of {function} in degrees, {'from -180 to 180' if wrap else 'unwrapped'}", RED, angle_axis, angles))
    else:
        panels = [Panel("modulus", f"modulus of {function}", BLUE, None, {}), Panel("angle", f"angle of {function} in degrees", RED, None, {})]
    longest = max((len(label) for panel in panels if panel.axis for _, label in panel.axis.ticks(8)), default=1)
    left = math.ceil(22 + 12 * DIGIT * longest)
    width = WIDTH - 16 - left - 2 * INSIDE
    axis = along_axis(points, along, options)

    def across(place):
        return left + INSIDE + width * axis.place(place)

    ticks_along = [(left + INSIDE + width * at, label) for at, label in fitting(axis, width, 12)]
    title = options.get("--title", f"{function}, order {decimal(order + options['--entry'])}")
    sheet = Sheet()
    sheet.words(title, 16, left, f' font-weight="bold" fill="{INK}"')
    refusals = sum(isinstance(point.why, int) for point in points)
    outcome = "all answered" if not refusals else f"{len(points) - refusals} answered, {refusals} refused"
    sheet.words(f"{counted(len(points), 'point')} {stretch(frames)}{'' if under else '; ' + outcome}", 12, left, f' fill="{INK}"')
    if under:
        sheet.words(f"over those {stretch(under)}; {outcome}", 12, left, f' fill="{INK}"')
    for panel in panels:
        draw_panel(sheet, panel, points, across, left, ticks_along, wrap)
    for at, label in ticks_along:
        sheet.parts.append(text_at(at, sheet.down + 19, label, 12, f' class="along" text-anchor="middle" fill="{INK}"'))
    times = f"{decimal(options['--factor'])} times " if options["--factor"] != 1 else ""
    powered = f", to the power {decimal(options['--power'])}" if options["--power"] != 1 else ""
    label = options.get("--label", times + ALONG[along] + powered) + (", logarithmic axis" if isinstance(axis, Logarithmic) else "")
    sheet.down += 22
    for line in folded(label, 13, WIDTH - 32):
        sheet.down += LINE
        sheet.parts.append(text_at(left + INSIDE + width / 2, sheet.down, line, 13, f' text-anchor="middle" fill="{INK}"'))
    sheet.down += 6
    for line in legend(points, meanings):
        sheet.words(line, 12, left, f' fill="{INK}"')
    height = math.ceil(sheet.down + 14)
    head = [
        f'<svg xmlns="http://www.w3.org/2000/svg" width="{WIDTH}" height="{height}" viewBox="0 0 {WIDTH} {height}" role="img" '
        'font-family="Helvetica, Arial, \'DejaVu Sans\', sans-serif">',
        f"<title>{escape(title)}</title>", f'<rect width="{WIDTH}" height="{height}" fill="white"/>']
    return "\n".join(head + sheet.parts + ["</svg>"]) + "\n"


def drawn(files, options):
    """The picture of what the files hold, and the status."""
    frames, answers = sweep_of(files, "--ask" in options)
    values, under = list(values_of(answers, options["--entry"])), []
    if "--over" in options:
        under, answers = sweep_of([options["--over"]], True)
        if len(under) != len(frames) or under[0][:2] + under[0][3:4] != frames[0][:2] + frames[0][3:4]:
            both = f"{visible(files[0])} and {visible(options['--over'])}"
            raise Wrong(f"{both} differ in their number of frames, kind, scaling or first order, so that they have no ratio")
        values = list(map(ratio, values, values_of(answers, options["--entry"]), frames, under))
    along = options.get("--along") or moving(frames)
    meanings, status = known("picture")
    return picture(frames, under, points_of(frames, values, along, options), along, options, meanings), status


def main(words):
    try:
        if "--help" in words or "-h" in words:
            text, status = USAGE, 0
        else:
            try:
                files, options = asked(words)
            except Wrong as wrong:
                say(f"picture: {wrong}")
                return 2
            text, status = drawn(files, options)
    except Wrong as wrong:
        say(f"picture: {wrong}")
        return 1
    try:
        put(text)
    except OSError as wrong:
        return lost("picture", wrong)
    return status


if __name__ == "__main__":
    ended("picture", main)
