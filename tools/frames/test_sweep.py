#!/usr/bin/env python3
"""Tests sweep.py and picture.py, without the prover: words, lines and failures by what is printed, over a ./run made up for each case; the pictures by what is
in them, read as XML: where the curves go, against the axes' own labels, and where they are broken. With --program also sweep.py over ./run itself, against
points that are worked out here."""
import cmath
import math
import os
import random
import re
import shutil
import signal
import struct
import subprocess
import sys
import tempfile
import xml.etree.ElementTree as tree

import ask
import frame
import picture
import sweep
from test import BAD_COUNTS, BAD_KINDS, BAD_NUMBERS, made_up, seen, shell, told

HERE = os.path.dirname(os.path.abspath(__file__))
TOP = os.path.dirname(os.path.dirname(HERE))
FIELDS = ["the kind", "the order", "the number of orders", "the first real part", "the first imaginary part", "the last real part", "the last imaginary part",
          "the number of steps"]
EXAMPLE = ["K", "0.25", "2", "1.5", "-0.75", "3", "0", "5", "--scaled"]
# kind, scaling, n; then order, first pair and last pair by their bits; then the steps
EXAMPLE_REQUEST = "01010002" + "3FD0000000000000" + "3FF8000000000000" + "BFE8000000000000" + "4008000000000000" + "0000000000000000" + "0005"
ALONG_POINT = "number of the point, from 0"
tried = 0


def same(got, wanted, what):
    global tried
    tried += 1
    if got != wanted:
        raise SystemExit(f"tools/frames/test_sweep.py: {what}:\n  got    {got!r}\n  wanted {wanted!r}")


# ---- the words of sweep.py
def bad(words, text):
    for more in ([], ["--frames"]):
        same(told(sweep.main, words + more), (2, "", f"sweep: {text}\n"), words)


def requests():
    same(told(sweep.main, EXAMPLE), (0, EXAMPLE_REQUEST + "\n", ""), "the example")
    same(told(sweep.main, ["--scaled"] + EXAMPLE[:8]), (0, EXAMPLE_REQUEST + "\n", ""), "the option first")
    same(told(sweep.main, EXAMPLE[:8]), (0, "0100" + EXAMPLE_REQUEST[4:] + "\n", ""), "plain")
    drawn = random.Random(92)
    special = ["-0", "0", "1e-310", "5e-324", "inf", "-inf", "nan", "NaN", "-Infinity", "1.7976931348623157e308", "-32768.5", "bits:FFF0000000000001", ".5",
               "+2.", "1E3"]
    for _ in range(2000):
        numbers = [drawn.choice(special) if drawn.random() < 0.3 else repr(drawn.uniform(-1, 1) * 10 ** drawn.randrange(-300, 300)) for _ in range(5)]
        order, re_part, im_part, to_re, to_im = numbers
        kind, count = drawn.choice("KI"), str(drawn.choice((0, 1, 2, 512, 513, 65535, drawn.randrange(65536))))
        steps = drawn.choice((0, 1, 4096, 4097, 65535, drawn.randrange(65536)))
        scaled = ["--scaled"] if drawn.random() < 0.5 else []
        # the first frame and the last, as ./ask writes them, hold all but the steps
        first = told(ask.main, [kind, order, count, re_part, im_part, "--frame"] + scaled)[1].strip()
        last = told(ask.main, [kind, order, count, to_re, to_im, "--frame"] + scaled)[1].strip()
        words = [kind, order, count, re_part, im_part, to_re, to_im, str(steps)] + scaled
        same(told(sweep.main, words), (0, f"{first}{last[24:]}{steps:04X}\n", ""), words)


def bad_words():
    for place in (1, 3, 4, 5, 6):
        for word, text in BAD_NUMBERS + [("", f"is no number; {frame.advice('')}")]:
            bad(EXAMPLE[:place] + [word] + EXAMPLE[place + 1:], f"{FIELDS[place]}: {seen(word)} {text}")
    for place, most in ((2, "512"), (7, "4096")):
        for word, text in BAD_COUNTS:
            text = text.replace("a frame", "a request").replace("512", most)
            bad(EXAMPLE[:place] + [word] + EXAMPLE[place + 1:], f"{FIELDS[place]}: {seen(word)} {text}")
    for word in BAD_KINDS:
        bad([word] + EXAMPLE[1:], f"the kind: {seen(word)} is none; write K or I")
    for word in ("--frame", "--scale", "--Scaled", "--", "-s", "-x", "--scaled=1", "--steps", "--help=1", "-infinity", "-INF", "--1"):
        for place in (0, 3, 8):
            bad(EXAMPLE[:place] + [word] + EXAMPLE[place:], f"{word} is no word of sweep; see --help")
    for given in range(8):
        bad(EXAMPLE[:given], f"{', '.join(FIELDS[given:])}: missing; see --help")
    bad(EXAMPLE + ["9"], "9: one word too many; see --help")


def drawn_calls():
    """Any words at all: a request and status 0, or one line and status 2."""
    drawn = random.Random(644)
    pool = EXAMPLE + ["-inf", "nan", "1,5", "", "I", "512", "4096", "-0", "--", "-x", "\n", "\udc80", "\x00", "é" * 80, "9" * 5000, "1e400", "%s", "{0}", "-1",
                      "65536"]
    statuses = []
    for _ in range(3000):
        words = EXAMPLE[:]
        for _ in range(drawn.randrange(3)):
            words[drawn.randrange(len(words))] = drawn.choice(pool)
        if drawn.random() < 0.2:
            words.pop()
        status, out, err = told(sweep.main, words)
        written = status == 0 and re.fullmatch("[0-9A-F]{92}\n", out) and err == ""
        complained = status == 2 and out == "" and err.startswith("sweep: ") and err.count("\n") == 1 and err.endswith("\n")
        same(bool(written) or complained, True, (words, status, out, err))
        statuses.append(status)
    same((statuses.count(0) > 500, statuses.count(2) > 500), (True, True), statuses.count(0))


def helped():
    for words in (["--help"], ["-h"], EXAMPLE + ["--help"]):
        same(told(sweep.main, words), (0, sweep.USAGE, ""), words)
    for words in (["--help"], ["-h"], ["a", "b", "c", "--help"]):
        same(told(picture.main, words), (0, picture.USAGE, ""), words)
    for text, options in ((sweep.USAGE, sweep.OPTIONS[:2] + ("K|I", "ORDER", "STEPS", "TO_RE", "TO_IM")),
                          (picture.USAGE, picture.VALUED + picture.OPTIONS[:2] + tuple(picture.ALONG))):
        for word in options:
            same(word in text, True, word)
        same(max(map(len, text.split("\n"))) <= 140, True, "lines that a terminal has")


# ---- sweep.py --frames over a ./run that gives what it is told
def copied(to):
    for path in ("docs/refusals.txt", "tools/refusals/listed.py", *(f"tools/frames/{name}.py" for name in ("ask", "show", "frame", "sweep", "picture"))):
        os.makedirs(os.path.dirname(os.path.join(to, path)), exist_ok=True)
        shutil.copy(os.path.join(TOP, path), os.path.join(to, path))


def framed_by(top, elsewhere):
    frames = [EXAMPLE_REQUEST[:24] + f"3FF{at}000000000000BFE8000000000000" for at in range(5)]
    listing = "".join(line + "\n" for line in frames)
    words = " ".join(EXAMPLE)
    command = f"'{top}/tools/frames/sweep.py' {words} --frames"
    gives = f"printf '%s\\n' {' '.join(frames)}"
    made_up(top, f"[ \"$*\" = sweep ] && read -r line && [ \"$line\" = {EXAMPLE_REQUEST} ] && ! read -r more || exit 1; {gives}")
    same(shell(command, elsewhere), (0, listing, ""), "from another directory")
    same(shell(f"tools/frames/sweep.py {words} --frames < /", top), (0, listing, ""), "from its own, with a directory as standard input")
    os.symlink(os.path.join(top, "tools", "frames", "sweep.py"), os.path.join(elsewhere, "swept"))
    same(shell(f"./swept {words} --frames <&-", elsewhere), (0, listing, ""), "by a link, with standard input closed")
    same(shell(f"'{top}/tools/frames/sweep.py' {words}", elsewhere), (0, EXAMPLE_REQUEST + "\n", ""), "the request alone")
    made_up(top, f"echo run: proved 1 of 31 >&2; {gives}")
    same(shell(command, elsewhere), (0, listing, "run: proved 1 of 31\n"), "progress is passed on")
    for number, said in sorted(frame.refusals().items()) + [(200, None)]:
        told_as = f"sweep: refusal {number}: {said}\n" if said else f"sweep: refusal {number}, not known here\n"
        for status in (0, 1):
            made_up(top, f"echo run: proved 1 of 31 >&2; echo 'request 1: refusal {number}' >&2; exit {status}")
            same(shell(command, elsewhere), (1, "", "run: proved 1 of 31\n" + told_as), f"refusal {number}")
    made_up(top, f"echo 'request 1: refusal 12' >&2; {gives}")
    same(shell(command, elsewhere)[:2], (1, ""), "a refusal with frames: none of them is passed on")
    for text, said in (
        ("exit 1", "./run sweep gave 0 lines for 5 steps, and ended with 1"),
        ("exit 0", "./run sweep gave 0 lines for 5 steps, and ended with 0"),
        (f"echo {frames[0]}", "./run sweep gave 1 line for 5 steps, and ended with 0"),
        (f"{gives}; echo {frames[0]}", "./run sweep gave 6 lines for 5 steps, and ended with 0"),
        (f"{gives} | head -c -1", "./run sweep gave 4 lines and a part of one for 5 steps, and ended with 0"),
        (f"{gives}; printf 0", "./run sweep gave 5 lines and a part of one for 5 steps, and ended with 0"),
        (f"{gives}; exit 1", "./run sweep gave 5 lines for 5 steps, and ended with 1"),
        (f"{gives}; kill -9 $$", "./run sweep gave 5 lines for 5 steps, and ended with -9"),
        (f"{gives} | tr 3 b", f"line 1 of ./run sweep is no asking frame: {frames[0].replace('3', 'b')}"),
        (f"{gives} | sed '4s/.$//'", f"line 4 of ./run sweep is no asking frame: {frames[3][:-1]}"),
        (f"{gives} | sed '2s/.*/refusal/'", "line 2 of ./run sweep is no asking frame: refusal"),
    ):
        made_up(top, text)
        same(shell(command, elsewhere), (1, "", f"sweep: {said}\n"), text)
    for text in ("request 2: refusal 3", "request 1: refusal", "xrequest 1: refusal 3", "request 1: refusal 3000"):
        made_up(top, f"echo '{text}' >&2; exit 1")
        same(shell(command, elsewhere), (1, "", f"{text}\nsweep: ./run sweep gave 0 lines for 5 steps, and ended with 1\n"), text)
    made_up(top, gives)
    same(shell(command + " > /dev/full", elsewhere), (1, "", "sweep: standard output cannot be written: No space left on device\n"), "lost")
    same(shell(command + " >&-", elsewhere), (1, "", "sweep: standard output cannot be written: it is closed\n"), "closed")
    path = os.path.join(top, "docs", "refusals.txt")
    os.rename(path, path + ".away")
    made_up(top, "echo 'request 1: refusal 12' >&2; exit 1")
    status, out, err = shell(command, elsewhere)
    same((status, out, err.split("\n")[0][:46], err.split("\n")[1:]), (1, "", "sweep: the list of refusals cannot be read: [E",
                                                                       ["sweep: refusal 12, not known here", ""]), "no list")
    os.rename(path + ".away", path)
    os.remove(os.path.join(top, "run"))
    same(shell(command, elsewhere), (1, "", "sweep: ./run sweep cannot be run: No such file or directory\n"), "no ./run")


def interrupted(top, elsewhere):
    made_up(top, "echo at work >&2; exec sleep 60")
    with subprocess.Popen([os.path.join(top, "tools", "frames", "sweep.py"), *EXAMPLE, "--frames"], cwd=elsewhere, stdout=subprocess.PIPE,
                          stderr=subprocess.PIPE, start_new_session=True, preexec_fn=lambda: signal.signal(signal.SIGINT, signal.SIG_DFL)) as process:
        same(process.stderr.readline(), b"at work\n", "./run is at work")
        os.killpg(process.pid, signal.SIGINT)
        out, err = process.communicate(timeout=60)
    same((process.returncode, out, err), (1, b"", b"sweep: stopped\n"), "an interrupt")


# ---- pictures: lines made up here, and what is drawn of them
def asking(places, kind=1, scaling=0, count=1, order=0.0):
    return [struct.pack(">BBHddd", kind, scaling, count, order, z.real, z.imag).hex().upper() for z in places]


def answering(values):
    """A refusal's number gives its line; else the values of each entry."""
    lines = []
    for value in values:
        if isinstance(value, int):
            lines.append(f"{value:02X}" + 16 * "0")
        else:
            cells = [part for entry in (value if isinstance(value, list) else [value]) for part in (entry.real, entry.imag)]
            lines.append((bytes(9) + struct.pack(f">{len(cells)}d", *cells)).hex().upper())
    return lines


def drawing(folder, asked, answered, *words):
    """Status, standard output and standard error of picture.py over two files of lines."""
    paths = []
    for name, lines in (("asked", asked), ("answered", answered)):
        paths.append(os.path.join(folder, name))
        with open(paths[-1], "wb") as file:
            file.write(lines if isinstance(lines, bytes) else "".join(line + "\n" for line in lines).encode())
    status, out, err = told(picture.main, [*paths, *words])
    return status, out, err.replace(folder + os.sep, "")


class Seen:
    """A picture, read again."""

    def __init__(self, text):
        self.root = tree.fromstring(text)
        self.names = {one.tag.split("}")[1] for one in self.root.iter()}
        self.texts = [one for one in self.root.iter() if one.tag.endswith("}text")]
        self.words = [one.text for one in self.texts]
        self.panels = {one.get("class").split()[1]: one for one in self.root.iter() if (one.get("class") or "").startswith("panel ")}

    def of(self, name, tag, what):
        return [one for one in self.panels[name] if one.tag.endswith("}" + tag) and one.get("class") == what]

    def curves(self, name):
        """The vertices of each piece of a curve."""
        return [[tuple(map(float, pair.split(","))) for pair in one.get("points").split()] for one in self.of(name, "polyline", name)]

    def frame(self, name):
        one, = self.of(name, "rect", "frame")
        left, top, width, height = (float(one.get(key)) for key in ("x", "y", "width", "height"))
        return left, top, left + width, top + height

    def labels(self, name):
        """Height and value of each label of a vertical axis: its text stands 4 below its tick."""
        return [(float(one.get("y")) - 4, float(one.text)) for one in self.of(name, "text", "tick")]

    def along(self):
        return [(float(one.get("x")), float(one.text)) for one in self.texts if one.get("class") == "along"]


def read_off(labels, scale, at):
    """The value at a place of an axis, by its first label and its last."""
    (one, low), (other, high) = labels[0], labels[-1]
    return scale(low) + (scale(high) - scale(low)) * (at - one) / (other - one)


def close(got, wanted, span, what):
    """Within a thousandth and a half of the axis: a tenth of a pixel in a label's place, over fewer pixels than the panel has."""
    same(len(got) == len(wanted) and all(abs(one - other) <= 0.0015 * span for one, other in zip(got, wanted)), True, (what, got[:9], wanted[:9], span))


def round_labels(labels, logarithmic, what):
    """Two labels at least, at 1, 2 or 5 times powers of ten on a logarithm, else by even steps of 1, 2 or 5 times one, or of parts and numbers of a turn."""
    values = sorted(value for _, value in labels)
    steps = values if logarithmic else [other - one for one, other in zip(values, values[1:])]
    same(all(f"{step:.0e}"[0] in "125" or round(step) in (15, 30, 45, 90, 180, 360, 720, 1800) for step in steps) and len(values) > 1, True, (what, values))
    if not logarithmic:
        same(max(steps) - min(steps) <= 1e-6 * max(steps) + 1e-9 * max(map(abs, values)), True, (what, values))


def touch(one, other):
    return one[0] < other[1] and other[0] < one[1] and one[2] < other[3] and other[2] < one[3]


def well_made(text, what):
    """Parses, fetches and runs nothing, and no text is small, outside or over another."""
    found = Seen(text)
    same(found.names <= {"svg", "title", "rect", "g", "path", "text", "polyline", "circle"}, True, found.names)
    same((found.root.get("width"), found.root.get("viewBox").split()[2]), ("720", "720"), what)
    same(re.findall(r"(?:href|url\(|@import|<script|<style|on\w+=)", text), [], what)
    boxes = []
    for one in found.texts:
        size, x, y = (float(one.get(key)) for key in ("font-size", "x", "y"))
        wide = size * 0.57 * len(one.text)
        left = x - {"middle": wide / 2, "end": wide}.get(one.get("text-anchor"), 0)
        same((size >= 11, left >= 0, left + wide <= 721, 0 < y - size, y + 4 <= float(found.root.get("height"))), (True,) * 5, (what, one.text, left, wide, y))
        boxes.append((left, left + wide, y - 0.75 * size, y, one.text))
    for name in found.panels:
        if found.curves(name):
            round_labels(found.labels(name), any(text.startswith(f"{name} of ") and text.endswith(" logarithmic axis") for text in found.words), (what, name))
    same([(one[4], other[4]) for at, one in enumerate(boxes) for other in boxes[at + 1:] if touch(one, other)], [], (what, "texts over each other"))
    return found


def held(found, places, values, what, logarithmic=False, angles=None):
    """The curves go through the points with values, in order, and are broken at each of the others and nowhere else."""
    runs, gaps = [[]], []
    for at, value in enumerate(values):
        drawn = isinstance(value, complex) and value != 0 and cmath.isfinite(value)
        if drawn:
            runs[-1].append(at)
        else:
            gaps.append(at)
            runs.append([])
    runs = [run for run in runs if run]
    along = found.along()
    span = max(places) - min(places)
    for name, scale in (("modulus", math.log10 if logarithmic else float), ("angle", float)):
        left, top, right, bottom = found.frame(name)
        pieces = found.curves(name)
        same([len(piece) for piece in pieces], [len(run) for run in runs], (what, name, "the pieces of the curve"))
        for piece, run in zip(pieces, runs):
            close([read_off(along, float, x) for x, _ in piece], [places[at] for at in run], span, (what, name, "along"))
            same(all(left < x < right and top < y < bottom for x, y in piece), True, (what, name, "inside"))
        heights = [read_off(found.labels(name), scale, y) for piece in pieces for _, y in piece]
        wanted = [scale(abs(values[at])) for run in runs for at in run] if name == "modulus" else angles
        if wanted is not None:
            shown = [read_off(found.labels(name), scale, y) for y in (bottom - 10, top + 10)]
            close(heights, wanted, shown[1] - shown[0], (what, name, "upward"))
        bands = [(float(one.get("x")), float(one.get("x")) + float(one.get("width"))) for one in found.of(name, "rect", "gap")]
        across = {at: next(x for piece, run in zip(pieces, runs) for (x, _), place in zip(piece, run) if place == at) for run in runs for at in run}
        for at, x in across.items():
            same([band for band in bands if band[0] < x < band[1]], [], (what, name, at, "has a value and lies in no band"))
        for at in gaps:
            x = left + 10 + (right - left - 20) * (places[at] - min(places)) / span
            same(len([band for band in bands if band[0] <= x <= band[1]]) >= 1, True, (what, name, at, "has none and lies in a band"))
    return len(gaps)


def drawn_pictures(folder):
    drawn = random.Random(13)
    meanings = frame.refusals()
    gaps = 0
    for turn in range(60):
        count = drawn.choice((2, 3, 5, 21, 64, 101, 300))
        first, last = drawn.uniform(0, 40), drawn.uniform(41, 90)
        places = [first + at * (last - first) / (count - 1) for at in range(count)]
        wide = drawn.random() < 0.5
        values = [cmath.rect(10.0 ** (drawn.uniform(-150, 150) if wide else drawn.uniform(1, 2)), drawn.uniform(-3, 3)) for _ in places]
        for at in range(count):
            if drawn.random() < 0.2:
                values[at] = drawn.choice((drawn.choice(sorted(meanings)), 5, 0j, complex(math.nan, math.nan), complex(math.inf, 1), complex(-0.0, 0.0)))
        moduli = [abs(value) for value in values if isinstance(value, complex) and value != 0 and cmath.isfinite(value)]
        if not moduli:
            continue
        kind, scaling = drawn.choice((1, 2)), drawn.choice((0, 1))
        status, out, err = drawing(folder, asking([complex(x, 1) for x in places], kind, scaling), answering(values))
        same((status, err), (0, ""), turn)
        found = well_made(out, turn)
        logarithmic = max(moduli) / min(moduli) > 100
        function = "KI"[kind - 1] + ("", (" times e^z", " times e^-re")[kind - 1])[scaling]
        same((f"{function}, order 0" in found.words, f"modulus of {function}{', logarithmic axis' if logarithmic else ''}" in found.words), (True, True),
             found.words)
        same((f"angle of {function} in degrees, unwrapped" in found.words, "re of z" in found.words), (True, True), found.words)
        gaps += held(found, places, values, turn, logarithmic)
        legend = " ".join(found.words)
        for number in {value for value in values if isinstance(value, int)}:
            same(f"refusal {number}: {meanings[number]}" in legend, True, (turn, number))
            alone = [at for at, value in enumerate(values) if value == number and isinstance(value, int)]
            if len(alone) == 1:
                same(f"point {alone[0]}: refusal {number}: " in legend, True, (turn, number))
        same("ring: the value is 0" in legend, any(isinstance(value, complex) and value == 0 for value in values), turn)
        same("cross: the value is not finished" in legend, any(isinstance(value, complex) and cmath.isnan(value) for value in values), turn)
        same("cross: the value is not finite" in legend, any(isinstance(value, complex) and cmath.isinf(value) for value in values), turn)
        refused = sum(isinstance(value, int) for value in values)
        same((f"{count - refused} answered, {refused} refused" if refused else "all answered") in legend, True, turn)
    same(gaps > 500, True, f"{gaps} gaps")


def marks(folder):
    """The number at the foot of each gap, as far as there is room; a ring and a cross for the others."""
    places = [complex(at, 0) for at in range(12)]
    values = [cmath.rect(1 + at, 0.1 * at) for at in range(12)]
    values[2], values[5], values[6], values[9] = 4, 0j, complex(math.nan, math.nan), 200
    found = well_made(drawing(folder, asking(places), answering(values))[1], "marks")
    for name in ("modulus", "angle"):
        left, _, right, bottom = found.frame(name)
        numbers = found.of(name, "text", "mark")
        same([one.text for one in numbers], ["4", "200"], "the numbers")
        close([float(one.get("x")) for one in numbers], [left + 10 + (right - left - 20) * at / 11 for at in (2, 9)], right - left, "their places")
        same([bottom - 20 < float(one.get("y")) < bottom for one in numbers], [True, True], "at the foot")
        same((len(found.of(name, "circle", "mark")), len(found.of(name, "path", "mark"))), (1, 1), "a ring and a cross")
        same(len(found.of(name, "circle", name)), 8, "a dot for each value, where points are few")
    same("point 9: refusal 200, not known here" in found.words, True, found.words)
    for words in ([], ["--factor", "-1"]):
        found = well_made(drawing(folder, asking(places[:4]), answering([3, 1j, 2j, 3]), *words)[1], "refused ends")
        left, _, right, _ = found.frame("angle")
        ends = sorted((float(one.get("x")), float(one.get("x")) + float(one.get("width"))) for one in found.of("angle", "rect", "gap"))
        same((len(ends), ends[0][0], ends[1][1], ends[0][1] < ends[1][0]), (2, left, right, True), "bands at the ends go to the frame")
    found = well_made(drawing(folder, asking(places), answering([5] * 12))[1], "no value")
    same((found.words.count("no point has a value"), found.words.count("refusal 5"), found.curves("modulus")), (2, 2, []), found.words)
    many = [4 if at % 2 else cmath.rect(1, 0.01 * at) for at in range(999)]
    found = well_made(drawing(folder, asking([complex(at, 0) for at in range(999)]), answering(many))[1], "many gaps")
    same((len(found.of("angle", "rect", "gap")), len(found.of("angle", "circle", "angle")),
          "499 points, the first of them 1: refusal 4: " in " ".join(found.words)), (499, 500, True), "lone points have dots")


def axes(folder):
    """What decides on a logarithmic axis, what stands along, and turns of the angle."""
    places = [complex(at + 1, 2 * at + 1) for at in range(40)]
    for most, logarithmic in ((99.0, False), (100.0, False), (math.nextafter(100.0, 200.0), True), (101.0, True), (1e300, True)):
        values = [complex(1 + (most - 1) * at / 39, 0) for at in range(39)] + [complex(most, 0)]
        found = well_made(drawing(folder, asking(places), answering(values))[1], most)
        same("modulus of K, logarithmic axis" in found.words, logarithmic, most)
        held(found, list(range(40)), values, most, logarithmic, [0.0] * 40)
        same(ALONG_POINT in found.words, True, "where both parts move")
    values = [cmath.rect(1, -0.5 * at) for at in range(40)]
    lines = asking(places), answering(values)
    turned = [math.degrees(-0.5 * at) for at in range(40)]
    for along, wanted, said in (("re", [z.real for z in places], "re of z"), ("im", [z.imag for z in places], "im of z"),
                                ("modulus", list(map(abs, places)), "modulus of z"), ("point", list(range(40)), ALONG_POINT)):
        found = well_made(drawing(folder, *lines, "--along", along)[1], along)
        held(found, wanted, values, along, angles=turned)
        same(said in found.words, True, found.words)
        found = well_made(drawing(folder, *lines, "--along", along, "--factor", "-2.5")[1], along)
        held(found, [-2.5 * at for at in wanted], values, along, angles=turned)
        same(f"-2.5 times {said}" in found.words, True, found.words)
    found = well_made(drawing(folder, *lines, "--along", "re", "--factor", "30", "--power", "-0.5", "--label", "period & <phase>")[1], "a power")
    held(found, [30 / math.sqrt(z.real) for z in places], values, "a power", angles=turned)
    same("period & <phase>" in found.words, True, found.words)
    found = well_made(drawing(folder, *lines, "--along", "re", "--factor", "30", "--power", "-2", "--label", "period")[1], "a power of two decades")
    same("period, logarithmic axis" in found.words, True, found.words)
    for most, power, logarithmic in ((100, "0.5", False), (101, "0.5", True), (101, "1", False)):
        status, out, err = drawing(folder, asking([complex(1, 0), complex(most, 0)]), answering([1j, 2j]), "--power", power, "--label", "own")
        same((status, err, "own, logarithmic axis" in well_made(out, most).words), (0, "", logarithmic), "more than a decade, with a power")
    ends = [math.log10(30 / z.real**2) for z in places]
    close([read_off(found.along(), math.log10, x) for x, _ in found.curves("angle")[0]], ends, max(ends) - min(ends), "along a logarithm")
    found = well_made(drawing(folder, *lines, "--wrap", "--title", 'a "title"')[1], "wrapped")
    same(('a "title"' in found.words, "angle of K in degrees, from -180 to 180" in found.words), (True, True), found.words)
    heights = [read_off(found.labels("angle"), float, y) for piece in found.curves("angle") for _, y in piece]
    close(heights, [math.degrees(cmath.phase(value)) for value in values], 360, "wrapped")
    jumps = sum(abs(cmath.phase(one) - cmath.phase(other)) > math.pi for one, other in zip(values, values[1:]))
    same((len(found.curves("angle")), len(found.curves("modulus")), found.of("angle", "rect", "gap")), (jumps + 1, 1, []),
         "a turn is a break of the angle's curve alone, and no gap")
    values[20] = 4
    found = well_made(drawing(folder, asking(places), answering(values))[1], "anew")
    behind = [read_off(found.labels("angle"), float, y) for _, y in found.curves("angle")[1]]
    begin = math.degrees(cmath.phase(values[21]))
    close(behind, [begin - math.degrees(0.5 * at) for at in range(19)], 800, "the angle begins anew behind a gap")
    noise = [cmath.rect(1 + 1e-13 * at, 1e-12 * (at % 2)) for at in range(40)]
    found = well_made(drawing(folder, asking(places), answering(noise))[1], "noise")
    for name in ("modulus", "angle"):
        heights = [y for piece in found.curves(name) for _, y in piece]
        same(max(heights) - min(heights) < 1, True, (name, "what rounding leaves is drawn as a level line"))
    for moves, said in ((lambda at: complex(at, 3), "re of z"), (lambda at: complex(3, -at), "im of z"), (lambda at: complex(at, at), ALONG_POINT),
                        (lambda at: complex(1, 1), ALONG_POINT)):
        found = well_made(drawing(folder, asking(map(moves, range(5))), answering([1j] * 5))[1], said)
        same(said in found.words, True, said)
    for places, values in (([complex(7, 7)], [complex(3e-310, -1e-310)]), ([complex(0, 0)], [complex(-1e308, 0)]),
                           ([0j, complex(0, 32768)], [complex(1e-5, 5e-324)] * 2),
                           ([complex(at, 0) for at in range(4096)], [cmath.rect(math.exp(-at / 6), at) for at in range(4096)]),
                           ([complex(-1e300, 0), complex(1e300, 1)], [1j, 2j])):
        well_made(drawing(folder, asking(places), answering(values), "--along", "re")[1], places[0])


def entries(folder):
    """The entry that was asked for, of answers whose entries differ; and frames whose n differs."""
    places = [complex(at + 1, 0) for at in range(6)]
    rows = [[cmath.rect(1 + at + 10 * entry, 0.1) for entry in range(3)] for at in range(6)]
    for entry in range(3):
        found = well_made(drawing(folder, asking(places, count=3, order=0.25), answering(rows), "--entry", str(entry))[1], entry)
        held(found, [z.real for z in places], [row[entry] for row in rows], entry)
        same(f"K, order {entry}.25" in found.words, True, found.words)
    asked = asking(places[:3], count=1) + asking(places[3:], count=3)
    status, out, _ = drawing(folder, asked, answering([row[:1] for row in rows[:3]] + rows[3:]))
    held(well_made(out, "two n"), [z.real for z in places], [row[0] for row in rows], "two n")
    same(drawing(folder, asked, answering([row[:1] for row in rows[:3]] + rows[3:]), "--entry", "1"),
         (1, "", "picture: point 0 has 1 entry, so none of number 1, counted from 0\n"), "no such entry")
    same(drawing(folder, asking(places, count=3), answering(rows), "--entry", "3"),
         (1, "", "picture: point 0 has 3 entries, so none of number 3, counted from 0\n"), "no such entry")
    same(status, 0, "two n")


def bad_pictures(folder):
    asked, answered = asking([complex(1, at) for at in range(3)]), answering([1j, 4, 2j])
    same(drawing(folder, asked, answered)[0], 0, "the lines that are broken below")
    for words, text in (
        (["--entry", "x"], "the entry: x is none; write 0 to 511"), (["--entry", "-1"], "the entry: -1 is none; write 0 to 511"),
        (["--entry", "512"], "the entry: 512 is none; write 0 to 511"),
        (["--entry", "1.0"], "the entry: 1.0 is none; write 0 to 511"), (["--entry", "9" * 5000], "the entry: " + "9" * 57 + ".. is none; write 0 to 511"),
        (["--entry", ""], "the entry: an empty word is none; write 0 to 511"), (["--entry"], "--entry: what stands behind it is missing; see --help"),
        (["--along"], "--along: what stands behind it is missing; see --help"), (["--along", "z"], "--along: z is none; write re, im, modulus, point"),
        (["--along", "Re"], "--along: Re is none; write re, im, modulus, point"), (["--factor", "0"], "--factor: 0 makes no axis; write a number other than 0"),
        (["--factor", "inf"], "--factor: inf makes no axis; write a number other than 0"),
        (["--power", "nan"], "--power: nan makes no axis; write a number other than 0"),
        (["--power", "-0"], "--power: -0 makes no axis; write a number other than 0"),
        (["--factor", "1,5"], "--factor: 1,5 is no number; write a decimal point"),
        (["--power", "two"], f"--power: two is no number; {frame.advice('two')}"),
        (["--label", ""], "--label: an empty word cannot be drawn; write a line of text"),
        (["--label", " "], "--label:   cannot be drawn; write a line of text"), (["--label", "a\nb"], "--label: a\\nb cannot be drawn; write a line of text"),
        (["--title", "\x1b[1m"], "--title: \\x1b[1m cannot be drawn; write a line of text"),
        (["--title", "\udcff"], "--title: \\udcff cannot be drawn; write a line of text"),
        (["--title", "t" * 81], "--title: " + "t" * 57 + ".. has 81 characters; write 80 at most"), (["--wrap", "--wrap"], "--wrap stands twice; see --help"),
        (["--entry", "0", "--entry", "1"], "--entry stands twice; see --help"), (["--Wrap"], "--Wrap is no word of picture; see --help"),
        (["-x"], "-x is no word of picture; see --help"),
        (["--entry=1"], "--entry=1 is no word of picture; see --help"), (["-"], "- is no word of picture; see --help"),
        (["third"], "third: one file too many; see --help"),
        (["--ask"], "answered: one file too many with --ask; see --help"),
    ):
        same(drawing(folder, asked, answered, *words), (2, "", f"picture: {text}\n"), words)
    same(told(picture.main, []), (2, "", "picture: the file of the frames, the file of the answers: missing; see --help\n"), "no words")
    same(told(picture.main, ["a"]), (2, "", "picture: the file of the answers: missing; see --help\n"), "one file")
    same(told(picture.main, ["--ask"]), (2, "", "picture: the file of the frames: missing; see --help\n"), "no file")
    for name, why in ((os.path.join(folder, "none"), "No such file or directory"), (folder, "Is a directory")):
        same(told(picture.main, [name, name]), (1, "", f"picture: {frame.visible(name)} cannot be read: {why}\n"), why)
    same(told(picture.main, ["a\0b", "c"]), (1, "", "picture: a\\x00b cannot be read: embedded null byte\n"), "a null byte")

    def broken(frames, answers, text, *words):
        same(drawing(folder, frames, answers, *words), (1, "", f"picture: {text}\n"), text)

    def instead(lines, at, line):
        return lines[:at] + [line] + lines[at + 1:]

    is_none, no_answer = "asked, line 2 is no asking frame: ", "answered, line 2 is no answer line: "
    good = asked[1]
    for line, why in (
        ("", "it has 0 digits, not 56: an empty word"), (good[:-1], f"it has 55 digits, not 56: {good[:-1]}"),
        (good + "0", f"it has 57 digits, not 56: {good}0"),
        (good.lower(), f"a character of it is no upper-case hexadecimal digit: {good.lower()}"),
        (" " + good[1:], f"a character of it is no upper-case hexadecimal digit:  {good[1:]}"),
        (good + "\r", f"it ends in a carriage return; take it away with tr -d '\\r': {good}\\r"), (answered[0], "it has 50 digits, not 56: " + answered[0]),
        ("03" + good[2:], f"its kind is not 01 or 02, or its scaling not 00 or 01: 03{good[2:]}"),
        ("00" + good[2:], f"its kind is not 01 or 02, or its scaling not 00 or 01: 00{good[2:]}"),
        (good[:2] + "02" + good[4:], f"its kind is not 01 or 02, or its scaling not 00 or 01: {good[:2]}02{good[4:]}"),
        (EXAMPLE_REQUEST, f"it has 92 digits, as the request of a sweep has: write the frames with sweep.py --frames: {EXAMPLE_REQUEST[:57]}.."),
    ):
        broken(instead(asked, 1, line), answered, is_none + why)
    for line, why in (
        ("", "it has 0 digits, not 18 and 32 for each order: an empty word"),
        (answered[0][:-1], f"it has 49 digits, not 18 and 32 for each order: {answered[0][:-1]}"),
        (good, f"it has 56 digits, as an asking frame has: pass it through ./run first: {good}"),
        ("0" * 18, "an answer has 1 to 512 orders, and it has 0: " + "0" * 18),
        ("no answer", "a character of it is no hexadecimal digit: no answer"),
        ("04" + "0" * 16 + "\r", "it ends in a carriage return; take it away with tr -d '\\r': 04" + "0" * 16 + "\\r"),
    ):
        broken(asked, instead(answered, 1, line), no_answer + why)
    for lines, what in ((asking([1j], kind=2), "kind"), (asking([1j], scaling=1), "scaling"), (asking([1j], order=0.5), "first order")):
        broken(asked + lines, answered + answered[:1], f"asked, line 4 has another {what} than line 1; a picture has one")
    broken(asked, answered[:2], "asked has 3 frames and answered 2 answers: they do not belong together")
    broken(asked[:1], answered, "asked has 1 frame and answered 3 answers: they do not belong together")
    broken(asked, [], "asked has 3 frames and answered 0 answers: they do not belong together")
    broken([], answered, "asked has no frame")
    broken(asked, instead(answered, 2, answering([[1j, 2j]])[0]), "line 3: asked asks for 1 order and answered has 2: they do not belong together")
    same(drawing(folder, "\n".join(asked).encode(), "\n".join(answered).encode())[0], 0, "the last newline may lack")
    broken("\n".join(asked).encode() + b"\n\n", answered, "asked, line 4 is no asking frame: it has 0 digits, not 56: an empty word")
    for part, word in ((math.nan, "NaN"), (math.inf, "Infinity"), (-math.inf, "-Infinity")):
        broken(asking([complex(1, 1), complex(part, 1)]), answering([1j, 2]), f"point 1: its re is {word}, which has no place on an axis; try --along point")
        same(drawing(folder, asking([complex(1, 1), complex(part, 1)]), answering([1j, 2]), "--along", "point")[0], 0, "along the points")
    for places, words, text in (
        ([0j, 1 + 0j], ["--power", "-2"], "point 0: 1 times 0 to the power -2"), ([1 - 1j, 1 + 1j], ["--power", "0.5"], "point 0: 1 times -1 to the power 0.5"),
        ([1 + 0j, 1e300 + 0j], ["--power", "2"], "point 1: 1 times 1e+300 to the power 2"),
        ([1 + 0j, 1e300 + 0j], ["--factor", "1e9"], "point 1: 1000000000 times 1e+300 to the power 1"),
    ):
        broken(asking(places), answering([1j, 1j]), f"{text} has no place on an axis; take another --power or --along", *words)


def asking_pictures(top, elsewhere):
    """--ask, links, standard input, and output that is lost."""
    asked, answered = asking([complex(1, at) for at in range(3)]), answering([1j, 4, 2j])
    for name, lines in (("asked", asked), ("answered", answered)):
        with open(os.path.join(elsewhere, name), "w", encoding="utf-8") as file:
            file.write("".join(line + "\n" for line in lines))
    tool = f"'{top}/tools/frames/picture.py'"
    whole = shell(f"{tool} asked answered", elsewhere)
    same((whole[0], whole[2], len(Seen(whole[1]).curves("angle"))), (0, "", 2), "two files")
    gives = f"printf '%s\\n' {' '.join(answered)}"
    made_up(top, f"[ $# = 0 ] && cmp -s - '{elsewhere}/asked' || exit 1; echo run: proved >&2; {gives}")
    same(shell(f"{tool} asked --ask", elsewhere), (0, whole[1], "run: proved\n"), "--ask")
    same(shell(f"cat asked | {tool} /dev/stdin --ask", elsewhere), (0, whole[1], "run: proved\n"), "from standard input")
    os.symlink(os.path.join(top, "tools", "frames", "picture.py"), os.path.join(elsewhere, "pictured"))
    same(shell("./pictured asked --ask < /", elsewhere), (0, whole[1], "run: proved\n"), "by a link, with a directory as standard input")
    for text, said in (
        ("exit 1", "./run gave 0 lines for 3 frames, and ended with 1"), (f"{gives}; exit 1", "./run gave 3 lines for 3 frames, and ended with 1"),
        (f"{gives} | head -n 2", "./run gave 2 lines for 3 frames, and ended with 0"),
        (f"{gives} | sed 2s/04/xx/", f"./run, line 2 is no answer line: a character of it is no hexadecimal digit: xx{16 * '0'}"),
    ):
        made_up(top, text)
        same(shell(f"{tool} asked --ask", elsewhere), (1, "", f"picture: {said}\n"), text)
    os.remove(os.path.join(top, "run"))
    same(shell(f"{tool} asked --ask", elsewhere), (1, "", "picture: ./run cannot be started: No such file or directory\n"), "no ./run")
    same(shell(f"{tool} asked answered > /dev/full", elsewhere), (1, "", "picture: standard output cannot be written: No space left on device\n"), "lost")
    same(shell(f"{tool} asked answered >&-", elsewhere), (1, "", "picture: standard output cannot be written: it is closed\n"), "closed")
    path = os.path.join(top, "docs", "refusals.txt")
    os.rename(path, path + ".away")
    status, out, err = shell(f"{tool} asked answered", elsewhere)
    same((status, "point 1: refusal 4, not known here" in out, err.count("\n")), (1, True, 1), "no list of refusals: drawn, and told")
    os.rename(path + ".away", path)


def ratios(top, elsewhere):
    """--over: one sweep divided by another, plain and scaled, with gaps of both, against functions made up here."""
    shapes = {"plain": lambda z: cmath.exp(-z) / z, 1: lambda z: 1 / z, 2: lambda z: cmath.exp(-z) / z * math.exp(-z.real)}
    places, others = [complex(1 + at / 8, 1 + at / 8) for at in range(16)], [complex(1.5 + at / 5, 1.5 + at / 5) for at in range(16)]
    wanted = [shapes["plain"](z) / shapes["plain"](under) for z, under in zip(places, others)]
    tool = f"'{top}/tools/frames/picture.py'"
    for kind, scaling in ((1, 0), (1, 1), (2, 0), (2, 1)):
        shape = shapes[kind if scaling else "plain"]
        one, other = list(map(shape, places)), list(map(shape, others))
        one[3], other[3], other[5], one[9] = 8, 4, 5, 0j
        for name, frames, values in (("one", places, one), ("other", others, other)):
            for suffix, lines in (("", asking(frames, kind, scaling)), (".answered", answering(values))):
                with open(os.path.join(elsewhere, name + suffix), "w", encoding="utf-8") as file:
                    file.write("".join(line + "\n" for line in lines))
        made_up(top, f"cd '{elsewhere}' && cat > given; for name in one other; do cmp -s given $name && exec cat $name.answered; done; exit 1")
        status, out, err = shell(f"{tool} one --ask --over other --along re", elsewhere)
        same((status, err), (0, ""), (kind, scaling))
        found = well_made(out, (kind, scaling))
        values = wanted[:3] + [8, wanted[4], 5] + wanted[6:9] + [0j] + wanted[10:]
        logarithmic = "modulus of %s over %s, logarithmic axis" % (2 * ("KI"[kind - 1],)) in found.words
        same([one.text for one in found.of("angle", "text", "mark")], ["8", "5"], "the refusal of the first, where both are refused")
        held(found, [z.real for z in places], values, (kind, scaling), logarithmic)
        turns = [read_off(found.labels("angle"), float, y) for piece in found.curves("angle") for _, y in piece]
        angles = [cmath.phase(value) for value in values if isinstance(value, complex) and value]
        close([cmath.phase(cmath.rect(1, math.radians(turn))) for turn in turns], angles, 6, "turned")
        same("16 points from z = 1 + 1 i to z = 2.875 + 2.875 i" in found.words, True, found.words)
        same("over those from z = 1.5 + 1.5 i to z = 4.5 + 4.5 i; 14 answered, 2 refused" in found.words, True, found.words)
    none = "differ in their number of frames, kind, scaling or first order, so that they have no ratio"
    for lines in (asking(others[1:], 2, 1), asking(others, 1, 1), asking(others, 2, 0), asking(others, 2, 1, order=0.5)):
        with open(os.path.join(elsewhere, "other"), "w", encoding="utf-8") as file:
            file.write("".join(line + "\n" for line in lines))
        with open(os.path.join(elsewhere, "other.answered"), "w", encoding="utf-8") as file:
            file.write("".join(line + "\n" for line in answering([1j] * len(lines))))
        same(shell(f"{tool} one --ask --over other", elsewhere), (1, "", f"picture: one and other {none}\n"), lines[0])
    same(shell(f"{tool} one one.answered --over other", elsewhere), (2, "", "picture: --over goes with --ask alone; see --help\n"), "two files and a third")
    same(shell(f"{tool} one --ask --over none", elsewhere), (1, "", "picture: none cannot be read: No such file or directory\n"), "no other file")


# ---- the program itself
def bits(value):
    return struct.pack(">d", value).hex().upper()


def by_program():
    """sweep.py --frames over ./run, against the points as docs/SCOPE.md has them, worked out here; and each refusal that words can bring about."""
    drawn = random.Random(57)
    command = os.path.join(HERE, "sweep.py")
    sweeps = 0
    for _ in range(25):
        kind, scaled, count, steps = drawn.choice("KI"), drawn.random() < 0.5, drawn.randrange(1, 513), drawn.choice((1, 2, 3, 7, 64, 4096))
        order = drawn.choice((0.0, -0.0, drawn.uniform(0, 1000)))
        first_re, last_re = (drawn.choice((0.0, -0.0, 1e-310, 32768.0, drawn.uniform(0, 5))) for _ in range(2))
        first_im, last_im = (drawn.choice((-0.0, 5e-324, drawn.uniform(-9, 9))) for _ in range(2))
        words = [kind, repr(order), str(count), *map(repr, (first_re, first_im, last_re, last_im)), str(steps)] + (["--scaled"] if scaled else [])
        order, first_re, last_re = order + 0.0, first_re + 0.0, last_re + 0.0
        if steps == 1:
            points = [(first_re, first_im)]
        else:
            by_re, by_im = (last_re - first_re) / (steps - 1), (last_im - first_im) / (steps - 1)
            points = [(first_re + at * by_re, first_im + at * by_im) for at in range(steps)]
        head = {"K": "01", "I": "02"}[kind] + ("01" if scaled else "00") + f"{count:04X}" + bits(order)
        done = subprocess.run([command, *words, "--frames"], capture_output=True, check=False)
        wanted = "".join(head + bits(re_part) + bits(im_part) + "\n" for re_part, im_part in points)
        same((done.returncode, done.stdout.decode(), done.stderr), (0, wanted, b""), words)
        sweeps += 1
    for place, word, number in ((7, "0", 13), (7, "4097", 13), (2, "0", 1), (2, "513", 1), (1, "nan", 2), (3, "inf", 2), (6, "-inf", 2), (1, "-1", 3),
                                (1, "1000.5", 3), (3, "-5e-324", 11), (5, "-1", 11), (4, "32769", 12), (6, "-32768.1", 12)):
        words = EXAMPLE[:place] + [word] + EXAMPLE[place + 1:]
        done = subprocess.run([command, *words, "--frames"], capture_output=True, check=False)
        same((done.returncode, done.stdout, done.stderr.decode()), (1, b"", f"sweep: refusal {number}: {frame.refusals()[number]}\n"), words)
    return f", {sweeps} sweeps by ./run to the bit"


def main(words):
    requests()
    bad_words()
    drawn_calls()
    helped()
    with tempfile.TemporaryDirectory() as folder:
        top, elsewhere = os.path.join(folder, "a copy"), os.path.join(folder, "elsewhere")
        os.makedirs(elsewhere)
        copied(top)
        framed_by(top, elsewhere)
        interrupted(top, elsewhere)
        by_words = tried
        drawn_pictures(folder)
        marks(folder)
        axes(folder)
        entries(folder)
        bad_pictures(folder)
        asking_pictures(top, elsewhere)
        ratios(top, elsewhere)
    by_picture = tried - by_words
    said = by_program() if words == ["--program"] else ""
    print(f"tools/frames: {by_words} tries of sweep.py, {by_picture} of picture.py{said}")


if __name__ == "__main__":
    main(sys.argv[1:])
