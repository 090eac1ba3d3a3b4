#!/usr/bin/env python3
"""Tests ./ask and show.py, without the prover: frames and words, good and bad, by what is printed; both scripts as processes, in a copy with a ./run made up for each
case; and the program's own stdin and stdout, every asking frame of which is written again from its fields and every answer shown."""
import io
import math
import os
import random
import shutil
import signal
import struct
import subprocess
import sys
import tempfile
from contextlib import contextmanager

import ask
import frame
import show
from frame import ASKING, KINDS, answer, asking

HERE = os.path.dirname(os.path.abspath(__file__))
TOP = os.path.dirname(os.path.dirname(HERE))
PROGRAM = os.path.join(TOP, "crates", "lichenoar")
FORMS = "write it as 0.25, -1.5e-3 or bits:3FD0000000000000"
EXAMPLE = ["K", "0.25", "2", "1.5", "-0.75", "--scaled"]
EXAMPLE_FRAME = "010100023FD00000000000003FF8000000000000BFE8000000000000"
WHOLE = "0000000000000000003FF0000000000000000000000000000000000000000000000000000000000000"
WHOLE_SHOWN = [
    "answered: 2 orders; 0 set to zero; longest sum 0 terms, 0 rungs, 0 backward steps",
    "  order 0.25                         1                         0 i",
    "  order 1.25                         0                         0 i",
]
OPEN_ROWS = "no value stands there; ask plain if it was asked scaled, else at a modulus of 37 or less; another number of orders does not help"
STOPPED = "00FFFF000000000000" + "7FF8000000000000" * 2 + "0" * 32
STOPPED_SHOWN = [
    "answered: 2 orders, 1 not finished; 1 set to zero; longest sum 0 terms, 0 rungs, 0 backward steps",
    "  order 1                       NaN                       NaN i   not finished",
    "  order 2                         0                         0 i",
    f"not finished: 1 of 2 orders, from the lowest up; {OPEN_ROWS}",
]
tried = 0


def same(got, wanted, what):
    global tried
    tried += 1
    if got != wanted:
        raise SystemExit(f"tools/frames/test.py: {what}:\n  got    {got!r}\n  wanted {wanted!r}")


@contextmanager
def streams(stdin=b""):
    kept = sys.stdin, sys.stdout, sys.stderr
    sys.stdin, sys.stdout, sys.stderr = io.TextIOWrapper(io.BytesIO(stdin)), io.TextIOWrapper(io.BytesIO()), io.StringIO()
    try:
        yield sys.stdout.buffer, sys.stderr
    finally:
        sys.stdin, sys.stdout, sys.stderr = kept


def told(main, words, stdin=b""):
    """Status, standard output and standard error of a script's main, in this process."""
    with streams(stdin) as (out, err):
        return main(words), out.getvalue().decode("utf-8"), err.getvalue()


def bad(words, text):
    same(told(ask.main, words), (2, "", f"ask: {text}\n"), words)


# ---- words
def good_words():
    for words, wanted in (
        (["I", "0", "2", "0"], "02000002" + 48 * "0"),
        (EXAMPLE, EXAMPLE_FRAME),
        (["--scaled"] + EXAMPLE[:5], EXAMPLE_FRAME),
        (["K", "--scaled", "bits:3fd0000000000000", "+2", "bits:3FF8000000000000", "-.75"], EXAMPLE_FRAME),
        (["K", "2.5e-1", "002", "15E-1", "-75e-2", "--scaled", "--scaled"], EXAMPLE_FRAME),
        (["K", "-0", "1", "-0.0", "-0"], "01000001" + 3 * "8000000000000000"),
        (["K", "1.", "513", ".5", "+.5"], "010002013FF00000000000003FE00000000000003FE0000000000000"),
        (["I", "0", "0", "1"], "0200000000000000000000003FF00000000000000000000000000000"),
        (["I", "0", "65535", "1"], "0200FFFF00000000000000003FF00000000000000000000000000000"),
        (["I", "nan", "1", "inf", "-inf"], "020000017FF80000000000007FF0000000000000FFF0000000000000"),
        (["I", "NaN", "1", "Infinity", "-Infinity"], "020000017FF80000000000007FF0000000000000FFF0000000000000"),
        (["I", "+NaN", "1", "+Infinity", "-NaN"], "020000017FF80000000000007FF00000000000007FF8000000000000"),
        (["I", "-Infinity", "1", "+inf", "+nan"], "02000001FFF00000000000007FF00000000000007FF8000000000000"),
        (["I", "-nan", "1", "bits:7FF0000000000001", "bits:FFFFFFFFFFFFFFFF"], "020000017FF80000000000007FF0000000000001FFFFFFFFFFFFFFFF"),
        (["K", "5e-324", "1", "1.7976931348623157e308", "0e999"], "0100000100000000000000017FEFFFFFFFFFFFFF0000000000000000"),
        (["K", "0" * 5000 + "1", "1", "1" + "0" * 300, "0." + "0" * 5000], "010000013FF00000000000007E37E43C8800759C0000000000000000"),
    ):
        same(told(ask.main, words + ["--frame"]), (0, wanted + "\n", ""), words)
        same(told(ask.main, ["--frame"] + words), (0, wanted + "\n", ""), words)


BAD_NUMBERS = [(word, "is no number; " + FORMS) for word in (
    "x", "1x", "x1", "1.2.3", "1..2", ".", "+", "-", "e5", "1e", "1e+", "1e5.5", "--5"[1:] + "-", "1-2", "1+2", "0x10", "1_000", "1 000", " 1", "1 ", "1;5", "1:5", "1/2", "1'000",
    "infinite", "Infinity1", "infin", "nan1", "1e5e5", "+-1", "-+1", "bit:3FD0000000000000", "BITS:3FD0000000000000", "3FD0000000000000", "(1)", "1i", "1f", "1d0", "½", "١", "1\u00a0000", "√2", "π", "1,000,000", "1.5,5", "1,5.5", "1,5x",
)]
BAD_NUMBERS += [(word, "is no number; write a decimal point") for word in ("0,25", "-0,75", "+1,5", ",5", "1,", "1,5e3", "1,5E-3", "1,000", ",")]
BAD_NUMBERS += [(word, "is no number; its minus is another character; write -") for word in ("\u22121.5", "\u20131", "\u20141", "1e\u22125")]
BAD_NUMBERS += [(word, "is no number; write Infinity, -Infinity or NaN") for word in ("infinity", "INF", "Inf", "INFINITY", "+infinity", "NAN", "Nan", "+NAN")]
BAD_NUMBERS += [(word, "has not 16 hexadecimal digits behind bits:") for word in (
    "bits:", "bits:3FD000000000000", "bits:3FD00000000000000", "bits:3FD000000000000G", "bits:3FD0 00000000000", "bits:0.25", "bits:-3FD000000000000", "bits: 3FD0000000000000")]
BAD_NUMBERS += [(word, "is above the largest f64, 1.7976931348623157e308") for word in ("1e309", "-1e309", "1e999999999", "1.7976931348623159e308", "-17976931348623159" + "0" * 30 + "e262")]
BAD_NUMBERS += [(word, "is below the least f64, 5e-324; write 0 if 0 is meant") for word in ("1e-324", "-1e-400", "2.4e-324", "0.1e-999999999")]
BAD_COUNTS = [(word, "is no whole number; write 1 to 512") for word in (
    "2.5", "2.0", "1e2", "x", "", " ", "2 ", " 2", "1,5", "0x2", "2_0", "bits:3FF0000000000000", "+", "-", "--2"[1:] + "-", "٢", "²", "inf", "nan", "Infinity", "NaN", "1/2", "2;")]
BAD_COUNTS += [(word, "does not fit into a frame; write 1 to 512") for word in ("-1", "-2", "65536", "70000", "9" * 40, "9" * 5000, "-512", "1000000")]
BAD_KINDS = ["k", "i", "J", "j", "KI", "IK", "Y", "H", "01", "1", "", " K", "K ", "KK", "0", "k0", "K\n", "Κ", "log-gamma", "K,", "\udcff"]


def seen(word):
    return {"": "an empty word", "K\n": "K\\n", "\udcff": "\\udcff"}.get(word, word if len(word) <= 60 else word[:57] + "..").replace("\u00a0", "\\xa0")


def bad_words():
    for place, name in ((1, "the order"), (3, "the real part"), (4, "the imaginary part")):
        for word, text in BAD_NUMBERS:
            words = EXAMPLE[:place] + [word] + EXAMPLE[place + 1:]
            bad(words, f"{name}: {seen(word)} {text}")
        bad(EXAMPLE[:place] + [""] + EXAMPLE[place + 1:], f"{name}: an empty word is no number; {FORMS}")
        bad(EXAMPLE[:place] + ["1\n2"] + EXAMPLE[place + 1:], f"{name}: 1\\n2 is no number; {FORMS}")
        bad(EXAMPLE[:place] + ["\x1b[31m"] + EXAMPLE[place + 1:], f"{name}: \\x1b[31m is no number; {FORMS}")
        bad(EXAMPLE[:place] + ["z" * 70] + EXAMPLE[place + 1:], f"{name}: {57 * 'z'}.. is no number; {FORMS}")
        bad(EXAMPLE[:place] + ["9" * 400] + EXAMPLE[place + 1:], f"{name}: {57 * '9'}.. is above the largest f64, 1.7976931348623157e308")
    for word, text in BAD_COUNTS:
        bad(["K", "0", word, "1"], f"the number of orders: {seen(word)} {text}")
    for word in BAD_KINDS:
        bad([word] + EXAMPLE[1:], f"the kind: {seen(word)} is none; write K or I")
    for word in ("--scale", "--Scaled", "--frames", "--", "-s", "-scaled", "-x", "--scaled=1", "--help=1", "-i", "-infinity", "-INF", "-Nan", "-nan1", "--Infinity", "--1", "---"):
        for place in (0, 1, 4, 6):
            bad(EXAMPLE[:place] + [word] + EXAMPLE[place:], f"{word} is no word of ask; see --help")
    fields = ["the kind", "the order", "the number of orders", "the real part"]
    for given in range(4):
        for options in ([], ["--scaled"], ["--frame"], ["--scaled", "--frame"]):
            bad(EXAMPLE[:given] + options, f"{', '.join(fields[given:])}: missing; see --help")
    bad(EXAMPLE[:5] + ["7"], "7: one word too many; see --help")
    bad(EXAMPLE[:5] + ["a b", "8"], "a b: one word too many; see --help")


def judged(word):
    """Whether a word of digits and signs is a number that an f64 has, by Python's own reading."""
    try:
        value = float(word)
    except ValueError:
        return False
    return math.isfinite(value) and not (value == 0 and any(c in "123456789" for c in word.lower().split("e")[0]))


def drawn_words():
    drawn = random.Random(20261115)
    taken = 0
    for _ in range(20000):
        word = "".join(drawn.choice("00112345679.,eE+-") for _ in range(drawn.randrange(1, 9)))
        if word.startswith("--") or word.startswith(("-e", "-E")):
            continue
        status, out, err = told(ask.main, ["K", word, "1", "1", "--frame"])
        if judged(word):
            same((status, out, err), (0, asking("K", False, float(word), 1, 1.0, 0.0) + "\n", ""), word)
            taken += 1
        else:
            same((status, out, err.count("\n"), err[:16 + len(word)]), (2, "", 1, f"ask: the order: {word}"), word)
    if not 3000 < taken < 17000:
        raise SystemExit(f"tools/frames/test.py: {taken} of the drawn words were numbers")


def drawn_calls():
    """Any words at all: a frame and status 0, or one line and status 2."""
    drawn = random.Random(644)
    pool = EXAMPLE + ["--frame", "-inf", "nan", "-Infinity", "NaN", "1,5", "", "I", "K", "0", "1", "512", "-0", "bits:3FF0000000000000", "--", "-", "-x", "\n", "\udc80", "\x00", "é" * 80, "9" * 5000, "1e400", "%s", "{0}"]
    statuses = []
    for _ in range(5000):
        words = drawn.choice((EXAMPLE, EXAMPLE[:5], EXAMPLE[:4], EXAMPLE[:3], EXAMPLE + ["7"]))[:]
        for _ in range(drawn.randrange(4)):
            words[drawn.randrange(len(words))] = drawn.choice(pool) if drawn.random() < 0.9 else "".join(chr(drawn.randrange(1, 0x3000)) for _ in range(drawn.randrange(6)))
        if "-h" in words:
            continue
        status, out, err = told(ask.main, words + ["--frame"])
        frame_given = status == 0 and len(out) == 57 and out[-1] == "\n" and err == "" and set(out[:-1]) <= set("0123456789ABCDEF")
        same(frame_given or (status == 2 and out == "" and err.startswith("ask: ") and err.count("\n") == 1 and err.endswith("\n")), True, (words, status, out, err))
        statuses.append(status)
    same((statuses.count(0) > 1000, statuses.count(2) > 1000), (True, True), statuses.count(0))


def drawn_lines():
    """Any bytes at all: each line is shown, or named by its number."""
    drawn = random.Random(644)
    for _ in range(300):
        lines = []
        for _ in range(drawn.randrange(1, 12)):
            alphabet = drawn.choice((b"0123456789ABCDEF", b"0123456789ABCDEFabcdef \r", bytes(set(range(256)) - {10})))
            lines.append(bytes(drawn.choice(alphabet) for _ in range(drawn.choice((0, 1, 18, 18, 18, 50, 56, 82, drawn.randrange(200))))))
        status, out, err = told(show.main, [], b"".join(line + b"\n" for line in lines))
        shown = [int(row.split()[1][:-1]) for row in out.split("\n") if row.startswith("frame ")]
        named = [int(row.split()[2]) for row in err.split("\n")[:-1] if row.startswith("show: line ")]
        same(sorted(shown + named), list(range(1, len(lines) + 1)), lines)
        same((status, len(named)), (1 if named else 0, err.count("\n")), lines)


def helped():
    for words in (["--help"], ["-h"], EXAMPLE + ["--help"], ["K", "--help"]):
        same(told(ask.main, words), (0, ask.USAGE, ""), words)
    for words in (["--help"], ["-h"]):
        same(told(show.main, words), (0, show.USAGE, ""), words)
    for word in ("K|I", "ORDER", "N ", "RE", "IM", "--scaled", "--frame", "decimal", "bits:", "0 answered", "1 refused", "2 the words", "3 answered", "not finished", "Infinity, -Infinity or NaN"):
        same(word in ask.USAGE, True, word)


# ---- answer lines
def shown_as(lines, words, status, out, err):
    same(told(show.main, words, lines), (status, out, err), lines)


def shows():
    text = "\n".join(WHOLE_SHOWN) + "\n"
    for word in ("0.25", "bits:3FD0000000000000", "+.25", "25e-2"):
        shown_as(WHOLE.encode() + b"\n", [word], 0, "frame 1: " + text, "")
    cut = "show: line 1 is no answer line: it has no newline, which every answer line of ./run has, so that orders may have been cut off: "
    for orders in (1, 2):
        line = WHOLE[:18 + 32 * orders]
        shown_as(line.encode(), ["0.25"], 1, "", cut + (line if len(line) <= 60 else line[:57] + "..") + "\n")
    lowest = "00FFFF000000000000" + "0" * 32
    shown_as(lowest.encode() + b"\n", ["370"], 0, "\n".join([
        "frame 1: answered: 1 order; 1 set to zero; longest sum 0 terms, 0 rungs, 0 backward steps",
        "  order 370                         0                         0 i", ""]), "")
    shown_as(b"", [], 0, "", "")
    shown_as(WHOLE.encode() + b"\n", [], 0, "frame 1: " + text.replace("order 0.25", "entry 0").replace("order 1.25", "entry 1"), "")
    third = struct.pack(">BhHHH6d", 0, 1, 1, 1, 1, 0.0, -0.0, 1 / 3, -0.1e-304, 0.1, 5e-324).hex().upper().encode()
    head = "frame 1: answered: 3 orders; 1 set to zero; longest sum 1 term, 1 rung, 1 backward step"
    shown_as(third + b"\n", ["bits:3FB999999999999A"], 0, "\n".join([
        head,
        "  order 0.1                         0                        -0 i",
        "  order 1.1       0.33333333333333331                   -1e-305 i",
        "  order 2.1       0.10000000000000001   4.9406564584124654e-324 i", ""]), "")
    shown_as(third + b"\n", ["998.00000000000011"], 0, "\n".join([
        head,
        "  order 998.0000000000001                          0                        -0 i",
        "  order 999.0000000000001        0.33333333333333331                   -1e-305 i",
        "  order 1000.0000000000001       0.10000000000000001   4.9406564584124654e-324 i", ""]), "")
    shown_as(STOPPED.encode() + b"\n", ["1"], 0, "frame 1: " + "\n".join(STOPPED_SHOWN) + "\n", "")
    low = "00FFFF000000000000" + "7FF8000000000000" * 4 + "0" * 32 + "3FF0000000000000" * 2
    shown_as(low.encode() + b"\n" + lowest.encode() + b"\n", [], 0, "\n".join([
        "frame 1: answered: 4 orders, 2 not finished; 1 set to zero; longest sum 0 terms, 0 rungs, 0 backward steps",
        "  entry 0                       NaN                       NaN i   not finished",
        "  entry 1                       NaN                       NaN i   not finished",
        "  entry 2                         0                         0 i",
        "  entry 3                         1                         1 i",
        f"not finished: 2 of 4 orders, from the lowest up; {OPEN_ROWS}",
        "frame 2: answered: 1 order; 1 set to zero; longest sum 0 terms, 0 rungs, 0 backward steps",
        "  entry 0                         0                         0 i", ""]), "")
    infinite = "000000000000000000" + "7FF0000000000000" + "FFF0000000000000"
    shown_as(infinite.encode() + b"\n", ["-Infinity"], 0, "\n".join([
        "frame 1: answered: 1 order; 0 set to zero; longest sum 0 terms, 0 rungs, 0 backward steps",
        "  order -Infinity                  Infinity                 -Infinity i", ""]), "")
    for number, said in frame.refusals().items():
        shown_as(b"%02X" % number + b"0" * 16, [], 0, f"frame 1: refusal {number}: {said}\n", "")
    for number in (99, 200, 255):
        shown_as(b"%02X" % number + b"0" * 16 + b"\n", [], 0, f"frame 1: refusal {number}, not known here\n", "")
    shown_as(b"04" + b"0" * 16 + b"\nC8" + b"0" * 16 + b"\n" + WHOLE.encode() + b"\n", ["0.25"], 0,
             f"frame 1: refusal 4: {frame.refusals()[4]}\nframe 2: refusal 200, not known here\nframe 3: {text}", "")


def bad_lines():
    count = " digits, not 18 and 32 for each order"
    cases = [
        (b"", f"it has 0{count}: an empty word"), (b"0", f"it has 1{count}: 0"), (b"0" * 17, f"it has 17{count}: " + 17 * "0"), (b"0" * 19, f"it has 19{count}: " + 19 * "0"),
        (b"0" * 18, "an answer has 1 to 512 orders, and it has 0: " + 18 * "0"),
        (b"0" * (18 + 32 * 513), "an answer has 1 to 512 orders, and it has 513: " + 57 * "0" + ".."),
        (b"04" + b"0" * 48, "it has cells behind the refusal 4: 04" + 48 * "0"),
        (b"0" * 56, "it has 56 digits, as an asking frame has: pass it through ./run first: " + 56 * "0"),
        (b"zz", "a character of it is no hexadecimal digit: zz"), (b"00 00" + b"0" * 14, "a character of it is no hexadecimal digit: 00 00" + 14 * "0"),
        (b"0a" + b"0" * 16, "its digits are not in upper case: 0a" + 16 * "0"),
        (b"04" + b"0" * 16 + b"\r", "it ends in a carriage return; take it away with tr -d '\\r': 04" + 16 * "0" + "\\r"),
        (b"\xff\xfe", "a character of it is no hexadecimal digit: \\xff\\xfe"), (b"\x00", "a character of it is no hexadecimal digit: \\x00"),
        (b"refusal 4", "a character of it is no hexadecimal digit: refusal 4"),
    ]
    for length in range(120):
        if length not in (18, 50, 56, 82, 114):
            cases.append((b"0" * length, f"it has {length}{count}: {length * '0' if length <= 60 else 57 * '0' + '..'}" if length else f"it has 0{count}: an empty word"))
    for at in range(18):
        for byte in b"/:@G`g \t\x7f\x80":
            line = bytearray(b"04" + b"0" * 16)
            line[at] = byte
            said = frame.visible(bytes(line).decode("ascii", "backslashreplace"))
            cases.append((bytes(line), f"a character of it is no hexadecimal digit: {said}"))
    good, shown = b"04" + b"0" * 16, f"refusal 4: {frame.refusals()[4]}\n"
    for line, text in cases:
        shown_as(good + b"\n" + line + b"\n" + good + b"\n", [], 1, f"frame 1: {shown}frame 3: {shown}", f"show: line 2 is no answer line: {text}\n")
    for word, text in BAD_NUMBERS:
        same(told(show.main, [word], good), (2, "", f"show: the order: {seen(word)} {text}\n"), word)
    same(told(show.main, ["0", "1"], good), (2, "", "show: 2 words, one at most: the first order; see --help\n"), "two words")


class Failing(io.RawIOBase):
    """An input of which a read fails, behind some bytes."""

    def __init__(self, data):
        super().__init__()
        self.data = data

    def readable(self):
        return True

    def readinto(self, into):
        if not self.data:
            raise OSError(5, "Input/output error")
        into[:len(self.data)] = self.data
        taken, self.data = len(self.data), b""
        return taken


def failing_reads():
    with streams() as (out, err):
        sys.stdin = io.TextIOWrapper(io.BufferedReader(Failing(b"04" + b"0" * 16 + b"\n")))
        same((show.main([]), out.getvalue().decode(), err.getvalue()),
             (1, f"frame 1: refusal 4: {frame.refusals()[4]}\n", "show: standard input cannot be read: Input/output error\n"), "a read that fails")


# ---- the scripts as they are called, in a copy of what they need
def copied(to):
    for path in ("ask", "docs/refusals.txt", "tools/refusals/listed.py", "tools/frames/ask.py", "tools/frames/show.py", "tools/frames/frame.py"):
        os.makedirs(os.path.dirname(os.path.join(to, path)), exist_ok=True)
        shutil.copy(os.path.join(TOP, path), os.path.join(to, path))


def made_up(top, text):
    path = os.path.join(top, "run")
    with open(path, "w", encoding="utf-8") as script:
        script.write("#!/bin/sh\n" + text + "\n")
    os.chmod(path, 0o755)


def shell(command, where):
    done = subprocess.run(["bash", "-c", command], cwd=where, capture_output=True, check=False)
    return done.returncode, done.stdout.decode("utf-8"), done.stderr.decode("utf-8")


def runs(top, elsewhere):
    """./ask over a ./run that gives what it is told."""
    command = f"'{top}/ask' K 0.25 2 1.5 -0.75 --scaled"
    heading = "K times e^z, 2 orders from 0.25, at z = 1.5 - 0.75 i\n"
    table = heading + "\n".join(WHOLE_SHOWN) + "\n"
    made_up(top, f"read -r frame; [ \"$frame\" = {EXAMPLE_FRAME} ] || exit 1; echo {WHOLE}")
    same(shell(command, elsewhere), (0, table, ""), "from another directory")
    same(shell("./ask K 0.25 2 1.5 -0.75 --scaled", top), (0, table, ""), "from its own")
    os.symlink(os.path.join(top, "ask"), os.path.join(elsewhere, "asked"))
    same(shell("./asked K 0.25 2 1.5 -0.75 --scaled < /", elsewhere), (0, table, ""), "by a link, with a directory as standard input")
    same(shell(command + " <&-", elsewhere), (0, table, ""), "with standard input closed")
    same(shell(command + " --frame", elsewhere), (0, EXAMPLE_FRAME + "\n", ""), "the frame alone")
    same(shell(f"'{top}/ask' K 0,25 2 1.5", elsewhere), (2, "", "ask: the order: 0,25 is no number; write a decimal point\n"), "a comma")
    same(shell(f"'{top}/ask' $'\\xff' 0 2 1.5", elsewhere), (2, "", "ask: the kind: \\udcff is none; write K or I\n"), "a byte that is no character")
    same(shell(f"LC_ALL=C PYTHONIOENCODING=ascii '{top}/ask' K √2 2 1.5 2> /dev/null", elsewhere)[:2], (2, ""), "characters that the terminal has not")
    made_up(top, "echo proved 1 of 31 >&2; echo 040000000000000000; exit 1")
    same(shell(command, elsewhere), (1, heading + f"refusal 4: {frame.refusals()[4]}\n", "proved 1 of 31\n"), "refused, with progress")
    made_up(top, "echo 040000000000000000; exit 0")
    same(shell(command, elsewhere)[0], 1, "refused")
    made_up(top, "echo C80000000000000000; exit 1")
    same(shell(command, elsewhere), (1, heading + "refusal 200, not known here\n", ""), "a number that is not known")
    for text, said in (
        ("exit 1", "./run gave 0 lines in place of one, and ended with 1"),
        ("exit 0", "./run gave 0 lines in place of one, and ended with 0"),
        (f"echo {WHOLE}; echo {WHOLE}", "./run gave 2 lines in place of one, and ended with 0"),
        (f"printf {WHOLE}", "./run gave 0 lines in place of one, and ended with 0"),
        (f"printf '{WHOLE}\\n0'", "./run gave 1 lines in place of one, and ended with 0"),
        ("kill -9 $$", "./run gave 0 lines in place of one, and ended with -9"),
        ("echo 00", "what ./run gave is no answer line: it has 2 digits, not 18 and 32 for each order: 00"),
        ("echo", "what ./run gave is no answer line: it has 0 digits, not 18 and 32 for each order: an empty word"),
        ("printf '\\377\\n'", "what ./run gave is no answer line: a character of it is no hexadecimal digit: \\xff"),
    ):
        made_up(top, text)
        same(shell(command, elsewhere), (1, "", f"ask: {said}\n"), text)
    made_up(top, f"echo {WHOLE}; exit 1")
    same(shell(command, elsewhere), (1, table, "ask: ./run answered, and ended with 1: something failed\n"), "answered, and failed")
    os.chmod(os.path.join(top, "run"), 0o644)
    os.remove(os.path.join(top, "run"))
    same(shell(command, elsewhere), (1, "", "ask: ./run cannot be started: No such file or directory\n"), "no ./run")


def headings(top, elsewhere):
    """What was asked stands above an answer and above a refusal, whatever was asked."""
    for words, wanted in (
        ("K 0.25 2 1.5 -0.75 --scaled", "K times e^z, 2 orders from 0.25, at z = 1.5 - 0.75 i"),
        ("K 0 1 800", "K, order 0, at z = 800 + 0 i"),
        ("I 1 2 0 -0 --scaled", "I times e^-re, 2 orders from 1, at z = 0 - 0 i"),
        ("I 1e-3 0 -1e300 1e-300", "I, 0 orders from 0.001, at z = -1e+300 + 1e-300 i"),
        ("K nan 1 inf -inf", "K, order NaN, at z = Infinity - Infinity i"),
        ("K bits:FFF8000000000000 513 -Infinity bits:FFFFFFFFFFFFFFFF", "K, 513 orders from NaN, at z = -Infinity + NaN i"),
        ("I Infinity 65535 -NaN -NaN", "I, 65535 orders from Infinity, at z = NaN + NaN i"),
    ):
        for given in (2, 3, 9):
            made_up(top, f"echo 0{given}0000000000000000")
            same(shell(f"'{top}/ask' {words}", elsewhere), (1, f"{wanted}\nrefusal {given}: {frame.refusals()[given]}\n", ""), words)
        made_up(top, f"echo {WHOLE}")
        status, out, err = shell(f"'{top}/ask' {words}", elsewhere)
        same((status, out.split("\n")[:2], err), (0, [wanted, WHOLE_SHOWN[0]], ""), words)


def not_finished(top, elsewhere):
    """An answer of I with orders that are not finished says so below its table, and has a status of its own."""
    command = f"'{top}/ask' I 1 2 38"
    table = "\n".join(["I, 2 orders from 1, at z = 38 + 0 i"] + STOPPED_SHOWN) + "\n"
    made_up(top, f"echo {STOPPED}")
    same(shell(command, elsewhere), (3, table, ""), "not finished")
    same(shell(command + " > /dev/full", elsewhere), (1, "", "ask: standard output cannot be written: No space left on device\n"), "not finished, and lost")
    made_up(top, f"echo {STOPPED}; exit 1")
    same(shell(command, elsewhere), (1, table, "ask: ./run answered, and ended with 1: something failed\n"), "not finished, and failed")
    made_up(top, f"echo 00FFFF000000000000{32 * '0'}")
    same(shell(f"'{top}/ask' I 370 1 38.5", elsewhere)[0], 0, "a negative count with every order finished")


def interrupted(top, elsewhere):
    """Stopped from the keyboard while ./run is at work: one line, and no traceback."""
    made_up(top, "echo at work >&2; exec sleep 60")
    with subprocess.Popen([os.path.join(top, "ask"), *EXAMPLE], cwd=elsewhere, stdout=subprocess.PIPE, stderr=subprocess.PIPE, start_new_session=True,
                          preexec_fn=lambda: signal.signal(signal.SIGINT, signal.SIG_DFL)) as process:
        same(process.stderr.readline(), b"at work\n", "./run is at work")
        os.killpg(process.pid, signal.SIGINT)
        out, err = process.communicate(timeout=60)
    same((process.returncode, out, err), (1, b"", b"ask: stopped\n"), "an interrupt")


def lost_output(top, elsewhere):
    made_up(top, f"echo {WHOLE}")
    asks = f"'{top}/ask' K 0.25 2 1.5 -0.75 --scaled"
    shows_one = f"echo {WHOLE} | '{top}/tools/frames/show.py'"
    for tool, command in (("ask", asks), ("ask", asks + " --frame"), ("ask", f"'{top}/ask' --help"), ("show", shows_one), ("show", f"'{top}/tools/frames/show.py' --help")):
        same(shell(command + " > /dev/full", elsewhere), (1, "", f"{tool}: standard output cannot be written: No space left on device\n"), command)
        same(shell(command + " >&-", elsewhere), (1, "", f"{tool}: standard output cannot be written: it is closed\n"), command)
        same(shell(command + " 2> /dev/full > /dev/full", elsewhere), (1, "", ""), command)
        same(shell(command + " 2>&- > /dev/full", elsewhere), (1, "", ""), command)
        same(shell(f"{{ sleep 1; {command}; echo $? >&2; }} | true", elsewhere), (0, "", f"{tool}: standard output cannot be written: Broken pipe\n1\n"), command)
    same(shell(f"'{top}/ask' K x 2>&-", elsewhere), (2, "", ""), "bad words, and standard error closed")
    for source, said in (("<&-", "it is closed"), ("< /", "it is a directory")):
        same(shell(f"'{top}/tools/frames/show.py' {source}", elsewhere), (1, "", f"show: standard input cannot be read: {said}\n"), source)
    same(shell(f"printf '{WHOLE}\\nzz\\n{WHOLE}\\n' | '{top}/tools/frames/show.py' 0.25", elsewhere),
         (1, "frame 1: " + "\n".join(WHOLE_SHOWN) + "\nframe 3: " + "\n".join(WHOLE_SHOWN) + "\n", "show: line 2 is no answer line: a character of it is no hexadecimal digit: zz\n"), "a bad line between two")


def short_lists(top, elsewhere):
    """The list of refusals, short, broken and away."""
    path = os.path.join(top, "docs", "refusals.txt")
    with open(path, encoding="utf-8") as file:
        whole = file.read()
    command = f"printf '040000000000000000\\n090000000000000000\\n' | '{top}/tools/frames/show.py'"
    four, nine = (f"refusal {n}: {frame.refusals()[n]}" for n in (4, 9))
    same(shell(command, elsewhere), (0, f"frame 1: {four}\nframe 2: {nine}\n", ""), "the whole list")
    for text, status, said, errors in (
        ("\n".join(line for line in whole.split("\n") if not line.startswith("9 ")), 0, (four, "refusal 9, not known here"), ""),
        (whole.replace("K of 0 is infinite", "nothing"), 0, (four.replace("K of 0 is infinite", "nothing"), nine), ""),
        (whole.replace("4 | Zero | K", "4 | Zero"), 1, ("refusal 4, not known here", "refusal 9, not known here"),
         "show: the list of refusals cannot be read: docs/refusals.txt:10: not five fields with ' | ' between them\n"),
        ("", 1, ("refusal 4, not known here", "refusal 9, not known here"), "show: the list of refusals cannot be read: docs/refusals.txt has no entry\n"),
    ):
        with open(path, "w", encoding="utf-8") as file:
            file.write(text)
        same(shell(command, elsewhere), (status, f"frame 1: {said[0]}\nframe 2: {said[1]}\n", errors), errors or said)
    os.remove(path)
    status, out, err = shell(command, elsewhere)
    same((status, out, err.count("\n"), err[:46]), (1, "frame 1: refusal 4, not known here\nframe 2: refusal 9, not known here\n", 1, "show: the list of refusals cannot be read: [Er"), "no list")
    with open(path, "w", encoding="utf-8") as file:
        file.write(whole)


# ---- the program's own lines
def recorded():
    kinds = {number: kind for kind, number in KINDS.items()}
    meanings = frame.refusals()
    asked = answered = refused = stopped = 0
    with open(os.path.join(PROGRAM, "stdin"), newline="\n", encoding="utf-8") as questions, open(os.path.join(PROGRAM, "stdout"), "rb") as answers:
        for question, line in zip(questions.read().split("\n"), answers.read().split(b"\n")):
            (number, *_), pairs = answer(line)
            text = show.shown(line, None, meanings)
            if number:
                same((text, pairs), ([f"refusal {number}: {meanings[number]}"], []), question)
                refused += 1
            if number == 9:
                continue
            kind, scaled, count, order, re_part, im_part = struct.unpack(ASKING, bytes.fromhex(question))
            if not any(map(math.isnan, (order, re_part, im_part))):
                same(asking(kinds[kind], scaled == 1, order, count, re_part, im_part), question, question)
                asked += 1
            if not number:
                without = sum(math.isnan(part) for pair in pairs for part in pair) // 2
                same((len(pairs), len(text)), (count, count + 2 if without else count + 1), question)
                same(text[count + 1:], [f"not finished: {without} of {count} orders, from the lowest up; {OPEN_ROWS}"] if without else [], question)
                same([row.endswith("not finished") for row in text[1:count + 1]], [at < without for at in range(count)], question)
                stopped += 1 if without else 0
                cells = [tuple(map(float, row.split(None, 2)[2].replace(" not finished", "").split("i")[0].split())) for row in text[1:count + 1]]
                same(struct.pack(f">{2 * count}d", *(part for pair in cells for part in pair)), bytes.fromhex(line[18:].decode()), "read again: " + question)
                answered += 1
    if asked < 15000 or answered < 10000 or refused < 4000 or stopped < 20:
        raise SystemExit(f"tools/frames/test.py: only {asked} asked, {answered} answered, {stopped} of them not finished, {refused} refused")
    return f"{asked} frames written again, {answered} answers ({stopped} not finished) and {refused} refusals shown"


def main():
    good_words()
    bad_words()
    words = tried
    drawn_words()
    drawn_calls()
    drawn_lines()
    helped()
    shows()
    bad_lines()
    failing_reads()
    with tempfile.TemporaryDirectory() as folder:
        top, elsewhere = os.path.join(folder, "a copy"), os.path.join(folder, "elsewhere")
        os.makedirs(elsewhere)
        copied(top)
        runs(top, elsewhere)
        headings(top, elsewhere)
        not_finished(top, elsewhere)
        interrupted(top, elsewhere)
        lost_output(top, elsewhere)
        short_lists(top, elsewhere)
    short = tried
    said = recorded()
    print(f"tools/frames: {words} words by what is printed, {short - words} drawn words, lines, calls and failures; {said}")


if __name__ == "__main__":
    main()
