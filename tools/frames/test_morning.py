#!/usr/bin/env python3
"""Tests morning.py, without the prover: pages made here by what is shown of them, as text and as HTML; pages broken in every way; words;
nights over a ./run made up for each case, and how far they are; what cannot be read or written. With --program also nights over ./run
morning itself, against a page that is counted here."""
import fcntl
import os
import pty
import random
import re
import shutil
import signal
import stat
import struct
import subprocess
import sys
import tempfile
import termios
import threading
import time
from concurrent.futures import ThreadPoolExecutor
from contextlib import contextmanager
from fractions import Fraction
from html.parser import HTMLParser

import frame
import morning
from test import made_up, shell, streams, told

HERE = os.path.dirname(os.path.abspath(__file__))
TOP = os.path.dirname(os.path.dirname(HERE))
COUNTS, TOTALS = 2 ** 32 - 1, 2 ** 64 - 1
POLICY = """<meta http-equiv="Content-Security-Policy" content="default-src 'none'; style-src 'unsafe-inline'">"""
OF_A_NIGHT = "line 1: it is a line of a night and not of its page: pass the night through ./run morning, or name it behind --night"
SUMS = "  0: no sum was taken. docs/CHOOSING.md says what the counts tell"
LIST = [frame.listed.Listed(*one) for one in (
    (1, "Length", ("K",), "too many orders", "ask for fewer"),
    (5, "Series", ("I",), "an argument that is too <large> & odd", "ask for more orders, " + "and then for more of them, " * 4 + "and use the first"),
    (8, "Overflow", ("K",), "a value is not finite", "ask plain"),
    (12, "Size", ("K",), "a part is above 32,768", "ask below it"))]
KNOWN = {one.number: one for one in LIST}
tried = 0


def same(got, wanted, what):
    global tried
    tried += 1
    if got != wanted:
        raise SystemExit(f"tools/frames/test_morning.py: {what}:\n  got    {got!r}\n  wanted {wanted!r}")


# ---- pages
def paged(longest=(0,) * 20, refused=((1, 0), (5, 0), (8, 0), (12, 0)), totals=(0, 0, 0), unreadable=0):
    """The lines of a page, of its parts."""
    out = [f"answered {sum(longest)}"] + [f"refused {given} {count}" for given, count in refused]
    out += [f"longest {terms} {count}" for terms, count in enumerate(longest)]
    return out + [f"{name} {total}" for name, total in zip(("rungs", "backward", "zeros"), totals)] + [f"unreadable {unreadable}"]


def joined(lines):
    return "".join(line + "\n" for line in lines).encode()


def showing(lines, *words):
    """Status, standard output and standard error of morning.py over the lines of a page, or bytes."""
    return told(morning.main, list(words), lines if isinstance(lines, bytes) else joined(lines))


WHOLE = dict(longest=[1300000, 0, 1] + 15 * [2000] + [499999, 170000], refused=[(1, 0), (5, 6000), (8, 14000), (9, 37), (14, 0), (200, 1)],
             totals=[18904417, 21347086, 1204], unreadable=8)
WHOLE_SHOWN = """morning page: 2,020,046 lines
  answered    2,000,000   99.01 %  #############################################
  refused        20,038    0.99 %  .
  unreadable          8   <0.01 %  .
  unreadable: the layout is no answer line's, the number is not in the list, or
    the longest sum is above 19

refused, by number; share of the refused
  refusal   5   6,000   29.94 %  ####################
    an argument that is too <large> & odd
    to do: ask for more orders, and then for more of them, and then for more of
      them, and then for more of them, and then for more of them, and use the
      first
  refusal   8  14,000   69.87 %  ###############################################
    a value is not finite
    to do: ask plain
  refusal   9      37    0.18 %  .
    refusal 9, not known here
  refusal 200       1   <0.01 %  .
    refusal 200, not known here
  did not occur: 1, 14
  not on this page: 12

answered, by the terms of the longest sum; share of the answered
   0  1,300,000   65.00 %  #####################################################
   1          0    0.00 %
   2          1   <0.01 %  .
""" + "".join(f"  {terms:>2}      2,000    0.10 %  .\n" for terms in range(3, 18)) + f"""  18    499,999   25.00 %  ####################
  19    170,000    8.50 %  #######
{SUMS}

over the answered lines: in all, and the mean for each
  rungs           18,904,417   9.45
  backward steps  21,347,086  10.67
  zeros                1,204  <0.01
"""


def percent(part, whole):
    """A share as it is to be shown, worked out in fractions."""
    found = Fraction(100 * part, whole)
    if 0 < found < Fraction(1, 200):
        return "<0.01 %"
    if Fraction(19999, 200) <= found < 100:
        return ">99.99 %"
    return f"{float(Fraction(int(100 * found + Fraction(1, 2)), 100)):.2f} %"


def whole_pages():
    same(showing(paged(**WHOLE)), (0, WHOLE_SHOWN, ""), "the whole page")
    same(showing(paged()), (0, "morning page: no lines\n", ""), "no lines")
    one = dict(longest=[1] + 19 * [0], totals=(0, 1, 0))
    status, out, _ = showing(paged(**one))
    wanted = ["morning page: 1 line", f"  answered    1  100.00 %  {53 * '#'}", "  refused     0    0.00 %", "  unreadable  0    0.00 %", "", "refused: none"]
    same((status, out.split("\n")[:6]), (0, wanted), "one line")
    for part, whole in ((1, 10 ** 6), (1, 19999), (1, 20000), (1, 20001), (1, 3), (2, 3), (5, 1000), (1, 16)):
        status, out, _ = showing(paged(longest=[part] + 19 * [0], unreadable=whole - part))
        shares = [row[3] for row in map(ROW.fullmatch, out.split("\n")[1:4])]
        same((status, shares), (0, [percent(part, whole), "0.00 %", percent(whole - part, whole)]), (part, whole))
    same([percent(*one) for one in ((1, 20001), (1, 20000), (20000, 20001), (19999, 20000), (1, 1), (0, 1))],
         ["<0.01 %", "0.01 %", ">99.99 %", ">99.99 %", "100.00 %", "0.00 %"], "the test's own shares")
    status, out, _ = showing(paged(refused=[(1, 3)]))
    same((status, out.split("\n")[-4:]), (0, ["  not on this page: 5, 8, 12", "", "answered: none", ""]), "none answered")
    status, out, _ = showing(paged(unreadable=COUNTS))
    same((status, out.split("\n")[0], "refused: none" in out, "answered: none" in out), (0, "morning page: 4,294,967,295 lines", True, True), "none readable")


ROW = re.compile(r"  (answered|refused|unreadable|refusal +[0-9]+|[ 1][0-9]) +([0-9,]+) +([<>]?[0-9]+\.[0-9]{2} %)(?:  (#+|\.))?")
TOTAL = re.compile(r"  (rungs|backward steps|zeros) +([0-9,]+) +(<0\.01|[0-9,]+\.[0-9]{2})")


def read_back(text, width, made):
    """Every number of a page, read from what is shown, against the numbers that it was made of; and the bars."""
    rows = [found for found in map(ROW.fullmatch, text.split("\n")) if found]
    answered, refused = sum(made["longest"]), [(given, count) for given, count in made["refused"] if count]
    all_refused, unreadable = sum(count for _, count in refused), made["unreadable"]
    whole = answered + all_refused + unreadable
    wanted = [("answered", answered, whole), ("refused", all_refused, whole), ("unreadable", unreadable, whole)]
    wanted += [(f"refusal {given}", count, all_refused) for given, count in refused]
    wanted += [(str(terms), count, answered) for terms, count in enumerate(made["longest"])] if answered else []
    got = [(" ".join(row[1].split()), int(row[2].replace(",", "")), row[3]) for row in rows]
    same(got, [(name, count, percent(count, of)) for name, count, of in wanted], made)
    same(all(f"{count:,}" == row[2] for row, (_, count, _) in zip(rows, wanted)), True, "thousands")
    for first, end in ((0, 3), (3, 3 + len(refused)), (3 + len(refused), len(rows))):
        largest = whole if not first else max((count for _, count, _ in wanted[first:end]), default=0)
        full = width - max((len(row[0]) - len(row[4] or "") for row in rows[first:end] if row[4]), default=0)
        for row, (_, count, _) in zip(rows[first:end], wanted[first:end]):
            long = full * Fraction(count, largest)
            same(abs(len((row[4] or "").replace(".", "")) - long) <= Fraction(1, 2), True, (row[0], full, width))
            same((row[4] == ".", row[4] is None), (count > 0 and long < Fraction(1, 2), count == 0), row[0])
    totals = [found for found in map(TOTAL.fullmatch, text.split("\n")) if found]
    same([int(found[2].replace(",", "")) for found in totals], list(made["totals"]) if answered else [], made)
    for found, total in zip(totals, made["totals"]):
        mean = Fraction(total, answered)
        if found[3] == "<0.01":
            same(0 < mean < Fraction(1, 200), True, (found[0], answered))
        else:
            same((abs(Fraction(found[3].replace(",", "")) - mean) <= Fraction(1, 200), found[3] == "0.00"), (True, not total), (found[0], answered))


def drawn_page(drawn):
    """The parts of a page: some are nothing, some as large as they can be."""
    room = drawn.choice((3, 40, 10 ** 6, COUNTS))
    cuts = sorted(drawn.choice((0, room, drawn.randrange(room + 1))) for _ in range(28))
    parts = [other - one for one, other in zip([0] + cuts, cuts + [room])]
    drawn.shuffle(parts)
    given = sorted({*drawn.sample(range(1, 256), 4), 5, 8})
    most = TOTALS if sum(parts[:20]) else 0
    totals = [drawn.choice((0, min(1, most), most, drawn.randrange(most + 1))) for _ in range(3)]
    return dict(longest=parts[:20], refused=list(zip(given, parts[20:])), totals=totals, unreadable=parts[28])


def drawn_pages(folder):
    """Any page, at any width: every number is there, and no line is wider; and the HTML says the same."""
    drawn = random.Random(15)
    path = os.path.join(folder, "drawn.html")
    for at in range(100):
        made = drawn_page(drawn)
        status, out, err = showing(paged(**made), *(["--html", path] if at % 5 == 0 else []))
        same((status, err, out.isascii(), max(map(len, out.split("\n"))) <= 80), (0, "", True, True), made)
        read_back(out, 80, made)
        if at % 5 == 0:
            with open(path, encoding="utf-8") as file:
                html_read_back(file.read(), made)
        page = morning.page_of(joined(paged(**made)))
        for width in (20, 33, 60, 100):
            lines = morning.text_of(page, morning.Night("a night" * 9, "doubt " * 30), KNOWN, width)
            same([line for line in lines if len(line) > width], [], (width, made))
            same(width < 60 or "".join("".join(lines).split()).count("#") > 0 or not page.lines(), True, (width, made))


# ---- pages that are none
def bad_page(lines, text):
    same(showing(lines), (1, "", f"morning: {text}\n"), lines)


BAD_NUMBERS = ("", "x", "-1", "+1", "01", "00", "1.0", " 1", "1 ", "1e3", "1,000", "0x1", "1 2", "\u0663", "1\t", "nan", "\x00", "1\x00")


def bad_numbers(base):
    """Each line with something else for its number, and with one that is too large."""
    for at, line in enumerate(base):
        name, _, number = line.rpartition(" ")
        for word in BAD_NUMBERS:
            text = word.encode().decode("ascii", "backslashreplace")
            bad_page(base[:at] + [f"{name} {word}"] + base[at + 1:], f"line {at + 1}: {name}: {frame.visible(text)} is no number as a page has them")
        most = TOTALS if name in ("rungs", "backward", "zeros") else COUNTS
        for above in (most + 1, most + 10, 10 ** 20, int("9" * 50)):
            bad_page(base[:at] + [f"{name} {above}"] + base[at + 1:], f"line {at + 1}: {name}: {above} is above {most}")
        bad_page(base[:at] + [f"{name} {'9' * 5000}"] + base[at + 1:], f"line {at + 1}: {name}: {57 * '9'}.. is above {most}")
        bad_page(base[:at] + [line + "\r"] + base[at + 1:], f"line {at + 1}: it ends in a carriage return; take it away with tr -d '\\r'")
        for word in (name, name.upper() + " 1", f" {line}", f"{name}  {number}x", line[1:], f"{name}:{number}", ""):
            if word.startswith(f"{name} "):
                said = f"{name}: {word[len(name) + 1:]} is no number as a page has them"
            else:
                wanted = name if not name.startswith("refused") else "refused K" if name == "refused 1" or word.startswith("refused") else "longest 0"
                said = f"{wanted} is to stand here, and there is: {frame.visible(word)}"
            bad_page(base[:at] + [word] + base[at + 1:], f"line {at + 1}: {said}")


def bad_orders(base):
    """Lines that are missing, there twice, in another order, or behind the page; and pages that are cut."""
    names = [line.rpartition(" ")[0] for line in base]
    for at, line in enumerate(base):
        if names[at][:7] == "refused":
            same(showing(base[:at] + base[at + 1:])[0], 0, "a page of another list")
            bad_page(base[:at + 1] + base[at:], f"line {at + 2}: {names[at]} does not come after {names[at]}")
        else:
            follower = base[at + 1] if at + 1 < len(base) else None
            said = f"is to stand here, and there is: {follower}" if follower else "is missing: the page ends before it"
            bad_page(base[:at] + base[at + 1:], f"line {at + 1}: {names[at]} {said}")
            next_name = "refused K" if at == 0 else names[at + 1] if follower else None
            said = f"{next_name} is to stand here, and there is: {line}" if follower else f"text behind the page: {line}"
            bad_page(base[:at + 1] + base[at:], f"line {at + 2}: {said}")
        if at:
            wanted = "refused K" if at == 1 else names[at] if names[at][:7] != "refused" else "longest 0"
            bad_page(base[:at], f"line {at + 1}: {wanted} is missing: the page ends before it")
            bad_page(joined(base[:at]) + line[:-1].encode(), f"line {at + 1}: it has no newline, so that a part may be cut off: {line[:-1]}")
            bad_page(joined(base[:at]) + line.encode(), f"line {at + 1}: it has no newline, so that a part may be cut off: {line}")
    bad_page([base[0]] + base[5:], "line 2: refused K is to stand here, and there is: longest 0 3")
    bad_page([base[0], base[2], base[1]] + base[3:], "line 3: refused 1 does not come after refused 5")
    for number in ("256", "300", "999"):
        bad_page(base[:4] + [f"refused {number} 4"] + base[5:], f"line 5: {number} is no refusal's number; these go from 1 to 255")
    for word in ("refused K 4", "refused 0 4", "refused 1000 4", "refused 012 4", "refused x 4", "refused", "refused 12", "refusedly 12 4"):
        said = "K is no refusal's number; these go from 1 to 255" if word == "refused K 4" else f"refused K is to stand here, and there is: {word}"
        bad_page(base[:4] + [word] + base[5:], f"line 5: {said}")
    for text in ("x", "", "answered 3", " ", "longest 20 0"):
        bad_page(base + [text], f"line 30: text behind the page: {text or 'an empty word'}")
    bad_page(joined(base) + b"no newline", "line 30: text behind the page: no newline")
    bad_page(joined(base) * 2, "line 30: text behind the page: answered 190")
    bad_page(joined(base) + b"x" * 10 ** 6, f"line 30: text behind the page: {57 * 'x'}..")


def bad_sums(base):
    """Parts that do not add up, and what is no page from its first line on."""
    for at, line in enumerate(base):
        name, _, number = line.rpartition(" ")
        if name == "answered" or name.startswith("longest"):
            changed = base[:at] + [f"{name} {int(number) + 1}"] + base[at + 1:]
            parts, answered = (190, 191) if not at else (191, 190)
            bad_page(changed, f"line 25: the 20 parts of longest add up to {parts}, and answered is {answered}")
    for terms in range(20):
        lines = paged(longest=[2 if terms else 0, 0 if terms else 2] + 18 * [0])
        lines[5 + terms] = f"longest {terms} 1"
        bad_page(lines, f"line 25: the 20 parts of longest add up to 3, and answered is 2")
    for name, at in (("rungs", 25), ("backward", 26), ("zeros", 27)):
        lines = paged()
        bad_page(lines[:at] + [f"{name} 7"] + lines[at + 1:], f"line {at + 1}: {name} is 7, and no line was answered")
    full = dict(longest=[COUNTS] + 19 * [0])
    same(showing(paged(**full))[0], 0, "as many lines as there can be")
    for more in (dict(unreadable=1), dict(refused=[(5, 1)])):
        at = 26 if "refused" in more else 29
        bad_page(paged(**full, **more), f"line {at}: answered, refused and unreadable add up to 4294967296, above 4294967295")
    bad_page(b"", "no page: nothing was read")
    bad_page(b"\n", "line 1: answered is to stand here, and there is: an empty word")
    bad_page(b"answered", "line 1: it has no newline, so that a part may be cut off: answered")
    bad_page(b"\xff\xfe\n", "line 1: answered is to stand here, and there is: \\xff\\xfe")
    bad_page(b"\x1b[2Janswered 5\n", "line 1: answered is to stand here, and there is: \\x1b[2Janswered 5")
    for line in (18 * b"0", b"0" * 50, b"04" + 16 * b"0", b"0" * (18 + 512 * 32)):
        bad_page((line + b"\n") * 2000, OF_A_NIGHT)


def drawn_damage():
    """Any bytes changed, taken away or put in: shown, or one line that says where, and nothing else."""
    drawn, good = random.Random(4), joined(paged(**WHOLE))
    shown = 0
    for _ in range(1000):
        data = bytearray(good)
        for _ in range(drawn.randrange(1, 4)):
            at = drawn.randrange(len(data))
            data[at:at + drawn.randrange(3)] = bytes(drawn.choice(b"0123456789 \n\rrefusdlongtbackwz\xff\x00-") for _ in range(drawn.randrange(3)))
        status, out, err = showing(bytes(data))
        told_so = status == 1 and out == "" and re.fullmatch(r"morning: line [0-9]+: [^\n]+\n", err)
        same(bool(told_so) or (status, err) == (0, ""), True, (bytes(data), status, out, err))
        shown += status == 0
    same(20 < shown < 500, True, shown)


# ---- words
def bad_words(folder):
    path = os.path.join(folder, "there")
    with open(path, "w", encoding="utf-8") as file:
        file.write("040000000000000000\n")
    os.symlink(path, path + " by a link")
    for words, text in (
        *(([*before, word], f"{frame.visible(word)} is no word of morning; see --help") for before in ([], ["--html", path])
          for word in ("x", "", "-", "-x", "--", "--htm", "--html=a", "--HTML", "a\nb", "\udcff", "x" * 80)),
        (["--html"], "--html: the file behind it is missing; see --help"), (["--html", "a", "--night"], "--night: the file behind it is missing; see --help"),
        (["--html", "a", "--html", "b"], "--html stands twice; see --help"), (["--night", "a", "--night", "a"], "--night stands twice; see --help"),
        (["--html", ""], "--html: an empty word is no name of a file; write ./ before it if it is one"),
        (["--html", "-"], "--html: - is no name of a file; write ./ before it if it is one"),
        (["--night", "--html"], "--night: --html is no name of a file; write ./ before it if it is one"),
        (["--night", "-x"], "--night: -x is no name of a file; write ./ before it if it is one"),
        (["--night", path, "--html", path], "--html would write over what is read; name another file"),
        (["--html", path, "--night", path + " by a link"], "--html would write over what is read; name another file"),
    ):
        same(told(morning.main, words), (2, "", f"morning: {text}\n"), words)
    with open(path, encoding="utf-8") as file:
        same(file.read(), "040000000000000000\n", "the night is as it was")


def helped():
    for words in (["--help"], ["-h"], ["--night", "--help"], ["x", "-h"]):
        same(told(morning.main, words), (0, morning.USAGE, ""), words)
    for word in morning.VALUED + ("./run morning", "NIGHT", "FILE", "Status: 0 shown, 1 it is no page or something failed, 2 the words"):
        same(word in morning.USAGE, True, word)
    same(max(map(len, morning.USAGE.split("\n"))) <= 140, True, "lines that a terminal has")


# ---- HTML
class Seen(HTMLParser):
    """An HTML page, read: its tags balanced, its text, the cells of its tables, the widths of its bars."""
    VOID = {"meta", "wbr"}
    ALLOWED = {"html", "head", "title", "style", "body", "main", "h1", "h2", "p", "table", "thead", "tbody", "tr", "th", "td", "i"} | VOID

    def __init__(self, text):
        super().__init__()
        self.open, self.text, self.rows, self.bars, self.attributes, self.style, self.doctype = [], [], [], [], [], "", None
        self.feed(text)
        self.close()
        same(self.open, [], "tags that are not closed")

    def handle_decl(self, decl):
        self.doctype = decl

    def handle_starttag(self, tag, attrs):
        same(tag in self.ALLOWED, True, tag)
        self.attributes += [(tag, *one) for one in attrs]
        if tag in self.VOID:
            return
        self.open.append(tag)
        if tag == "tr":
            self.rows.append([])
        if tag in ("th", "td") and ("class", "bar") not in attrs:
            self.rows[-1].append("")
        if tag == "i":
            self.bars.append((len(self.rows) - 1, float(re.fullmatch(r"width:([0-9.]+)%", dict(attrs)["style"])[1])))

    def handle_endtag(self, tag):
        same(self.open and self.open[-1], tag, "a tag that is closed in its place")
        self.open.pop()

    def handle_data(self, data):
        if self.open and self.open[-1] == "style":
            self.style += data
            return
        self.text.append(data)
        if "td" in self.open or "th" in self.open:
            self.rows[-1][-1] += data


def html_read_back(text, made):
    """An HTML page against the numbers that it was made of: its tables, its bars, what makes it fit a phone and every reader; nothing from elsewhere."""
    found = Seen(text)
    same((found.doctype, found.attributes[:2]), ("DOCTYPE html", [("html", "lang", "en"), ("meta", "charset", "utf-8")]), "the head")
    same(("meta", "content", "width=device-width, initial-scale=1") in found.attributes, True, "the viewport")
    names = {"lang", "charset", "http-equiv", "name", "content", "class", "style", "scope", "colspan", "aria-hidden", "aria-label"}
    same({name for _, name, _ in found.attributes} - names, set(), "attributes")
    same(len({value for _, name, value in found.attributes if name == "aria-label"}), text.count("<table"), "each table has a name of its own")
    same(text.count(POLICY), 1, "what the page may load: nothing")
    bare = text.replace(POLICY, "").lower()
    same([word for word in ("src", "href", "script", "url(", "@import", "http:", "https:", "//", "data:", "expression") if word in bare], [], "elsewhere")
    same("prefers-color-scheme:dark" in found.style and "color-scheme:light dark" in found.style, True, "light and dark")
    answered, refused = sum(made["longest"]), [(given, count) for given, count in made["refused"] if count]
    whole = answered + sum(count for _, count in refused) + made["unreadable"]
    heading = "Morning page: " + ("no lines" if not whole else "1 line" if whole == 1 else f"{whole:,} lines")
    same([one for one in found.text if one.startswith("Morning")], [heading, heading], "title and heading")
    tables = []
    for row in found.rows:
        if row[0] in ("outcome", "refusal", "terms", "count"):
            tables.append([])
        else:
            tables[-1].append(row)
    wanted = [[[name, f"{count:,}", percent(count, whole)] for name, count in (("answered", answered), ("refused", sum(count for _, count in refused)),
                                                                               ("unreadable", made["unreadable"]))]] if whole else []
    by_number = []
    for given, count in refused:
        by_number.append([str(given), f"{count:,}", percent(count, sum(count for _, count in refused))])
        by_number.append([KNOWN[given].words + "to do: " + KNOWN[given].remedy if given in KNOWN else f"refusal {given}, not known here"])
    wanted += [by_number] if refused else []
    wanted += [[[str(terms), f"{count:,}", percent(count, answered)] for terms, count in enumerate(made["longest"])]] if answered else []
    same(tables[:3 if answered and refused else 2 if answered or refused else 1], wanted, made)
    for total, row in zip(made["totals"], tables[-1] if answered else []):
        same(row[1], f"{total:,}", row)
    counts = [int(row[1].replace(",", "")) for row in found.rows if len(row) == 3 and re.fullmatch("[0-9,]+", row[1]) and row[2].endswith("%")]
    same(len(found.bars), sum(count > 0 for count in counts), "a bar for each count that is not 0")
    html_bars(found, whole)
    absent = [str(given) for given, count in made["refused"] if not count]
    same(not absent or not refused or f"did not occur: {', '.join(absent)}" in found.text, True, (absent, found.text))


def html_bars(found, whole):
    """Each bar is as long as its count over all lines, in the first table, or over the largest of its table."""
    by_row = dict(found.bars)
    begins = [at for at, row in enumerate(found.rows) if row[0] in ("outcome", "refusal", "terms", "count")] + [len(found.rows)]
    for first, end in zip(begins, begins[1:]):
        counts = {at: int(found.rows[at][1].replace(",", "")) for at in range(first + 1, end) if len(found.rows[at]) == 3 and found.rows[at][2].endswith("%")}
        largest = whole if found.rows[first][0] == "outcome" else max(counts.values(), default=0)
        for at, count in counts.items():
            same(abs(by_row.get(at, 0) - 100 * Fraction(count, largest or 1)) <= Fraction(1, 100), True, (found.rows[at], by_row.get(at)))


def html_pages(folder):
    path = os.path.join(folder, "whole.html")
    same(showing(paged(**WHOLE), "--html", path), (0, WHOLE_SHOWN, ""), "the text is there too")
    with open(path, encoding="utf-8") as file:
        text = file.read()
    html_read_back(text, WHOLE)
    for number in ("2,020,046", "18,904,417", "9.45", "21,347,086", "10.67", "1,204", "&lt;0.01<", "too &lt;large&gt; &amp; odd", "did not occur: 1, 14",
                   "not on this page: 12", "refusal 9, not known here", morning.UNREADABLE.replace("'", "&#x27;")):
        same(number in text, True, number)
    same(showing(paged(), "--html", path)[0], 0, "no lines")
    with open(path, encoding="utf-8") as file:
        html_read_back(file.read(), dict(longest=20 * [0], refused=[], totals=3 * [0], unreadable=0))
    page = morning.page_of(joined(paged(**WHOLE)))
    found = Seen(morning.html_of(page, morning.Night("<b>night</b> & \"more\"", "doubt </p>"), KNOWN))
    same([one for one in found.text if "night" in one or "doubt" in one], ["<b>night</b> & \"more\"", "doubt </p>"], "a name with marks in it")


def put_files(folder):
    """A file is written whole or not at all, for whoever may read any file, and through a link; what is no file stays."""
    inner = os.path.join(folder, "put")
    os.mkdir(inner)
    path, link, pipe = (os.path.join(inner, name) for name in ("page.html", "link", "pipe"))
    kept = os.umask(0o027)
    try:
        same(showing(paged(**WHOLE), "--html", path)[0], 0, "a new one")
    finally:
        os.umask(kept)
    same(stat.S_IMODE(os.stat(path).st_mode), 0o640, "who may read it")
    os.chmod(path, 0o604)
    os.symlink("page.html", link)
    with open(path, encoding="utf-8") as held:
        same(showing(paged(unreadable=5), "--html", link)[0], 0, "through a link")
        same("Morning page: 2,020,046 lines" in held.read(), True, "whoever had the older one open has it whole")
    same((os.path.islink(link), stat.S_IMODE(os.stat(path).st_mode)), (True, 0o604), "the link stays, and who may read it")
    with open(path, encoding="utf-8") as file:
        before = file.read()
    same("Morning page: 5 lines" in before, True, "written anew")
    os.mkfifo(pipe)
    for name, said in ((pipe, "it is no ordinary file"), (inner, "it is no ordinary file"), (os.path.join(inner, "no", "x.html"), "its folder is not there"),
                       (os.path.join(path, "x.html"), "its folder is not there"), (os.path.join(inner, "x" * 256), "File name too long")):
        status, out, err = showing(paged(**WHOLE), "--html", name)
        same((status, out, err), (1, WHOLE_SHOWN, f"morning: {frame.visible(name)} cannot be written: {said}\n"), "the text is shown all the same")
    with open(os.path.join(folder, "page"), "wb") as file:
        file.write(joined(paged(**WHOLE)))
    command = f"trap '' XFSZ; ulimit -f 2; '{HERE}/morning.py' --html '{path}' < '{folder}/page' 2>&1 > /dev/null"
    same(shell(command, folder), (1, f"morning: {frame.visible(path)} cannot be written: File too large\n", ""), "no room")
    with open(path, encoding="utf-8") as file:
        same(file.read(), before, "the older one stands where there is no room")
    same(sorted(os.listdir(inner)), ["link", "page.html", "pipe"], "nothing else is left")


# ---- nights, over a ./run that gives what it is told
class Stub:
    """A folder with a ./run made up for each case, in place of the real one."""

    def __init__(self, folder):
        self.folder = os.path.join(folder, "stub")
        os.mkdir(self.folder)
        self.kept, morning.RUN = morning.RUN, os.path.join(self.folder, "run")
        self.page = os.path.join(self.folder, "page")
        self.night = os.path.join(self.folder, "a night")
        with open(self.page, "wb") as file:
            file.write(joined(paged(**WHOLE)))
        with open(self.night, "wb") as file:
            file.write(b"040000000000000000\n" * 3 + b"cut off")

    def over(self, text, *words, night=None):
        """What is told of a night, by a ./run that does so."""
        made_up(self.folder, text)
        status, out, err = told(morning.main, ["--night", night or self.night, *words])
        return status, out, err.replace(self.folder + os.sep, "")


def night_shown(name, doubt=""):
    return WHOLE_SHOWN.replace("lines\n", f"lines, of {name}\n" + (doubt and doubt + "\n"), 1)


def nights(stub):
    gives = f"cat '{stub.page}'"
    named = night_shown("a night")
    made_up(stub.folder, f"[ \"$*\" = morning ] && cmp - '{stub.night}' && {gives}")
    same(told(morning.main, ["--night", stub.night]), (0, named, ""), "a night, passed on as it is")
    said = stub.over(f"cat > /dev/null; echo run: proved 1 of 31 >&2; {gives}; echo the end >&2; printf rest >&2")[2]
    same(said, "run: proved 1 of 31\nthe end\nrest\n", "what it says")
    same(stub.over(f"cat > /dev/null; printf 'a\\377\\033b\\n' >&2; {gives}")[::2], (0, "a\\xff\x1bb\n"), "bytes that are no characters")
    for ran, status in ((1, 1), (2, 2), (7, 7)):
        told_so = stub.over(f"cat > /dev/null; {gives}; echo 'line 4294967296: refusal 15' >&2; exit {ran}")
        doubt = f"perhaps not the whole night: ./run morning ended with {ran}"
        same(told_so, (status, night_shown("a night", doubt), "line 4294967296: refusal 15\n"), "the page of the first lines")
        said = f"no such program\nmorning: ./run morning gave no page, and ended with {ran}\n"
        same(stub.over(f"echo no such program >&2; exit {ran}"), (status, "", said), "no page")
        said = "morning: what ./run morning gave is no page: line 4: longest 0 is missing: the page ends before it\n"
        same(stub.over(f"cat > /dev/null; head -n 3 '{stub.page}'; exit {ran}"), (status, "", said), "half a page")
    same(stub.over("cat > /dev/null"), (1, "", "morning: ./run morning gave no page, and ended with 0\n"), "nothing")
    same(stub.over("cat > /dev/null; kill -9 $$"), (1, "", "morning: ./run morning gave no page, and ended with -9\n"), "killed")
    same(stub.over(f"cat > /dev/null; {gives}; kill -9 $$")[::2], (1, ""), "a page, and killed")
    same(stub.over("cat"), (1, "", f"morning: what ./run morning gave is no page: {OF_A_NIGHT}\n"), "the night itself")
    same(stub.over(f"cat > /dev/null; head -c 300000 /dev/zero | tr '\\0' x >&2; {gives}; head -c 300000 /dev/zero")[0], 1, "much of everything")
    same(stub.over(f"exec 2>&-; cat > /dev/null; {gives}")[0], 0, "standard error closed early")
    os.chmod(morning.RUN, 0o644)
    same(told(morning.main, ["--night", stub.night]), (1, "", "morning: ./run morning cannot be run: Permission denied\n"), "no program")
    os.remove(morning.RUN)
    same(told(morning.main, ["--night", stub.night]), (1, "", "morning: ./run morning cannot be run: No such file or directory\n"), "no ./run")


def large_nights(stub):
    """A night of many blocks arrives byte for byte; a program that goes away early ends the feeding."""
    large = os.path.join(stub.folder, "large")
    drawn = random.Random(9)
    with open(large, "wb") as file:
        for _ in range(12):
            file.write(drawn.randbytes(500001) + b"\n" * 499999)
    gives = f"cat '{stub.page}'"
    same(stub.over(f"cmp - '{large}' && {gives}", night=large)[::2], (0, ""), "12 MB")
    said = "morning: ./run morning ended with 0 before it had read the whole night\n"
    same(stub.over(f"head -c 1000000 > /dev/null; {gives}", night=large), (1, "", said), "part of it")
    same(stub.over(f"{gives}; exec 2>&-; exec <&-; sleep 0.1; exit 1", night=large)[::2], (1, ""), "none of it, and a status")
    same(stub.over("exit 2", night=large), (2, "", "morning: ./run morning gave no page, and ended with 2\n"), "none of it")
    pipe = os.path.join(stub.folder, "pipe")
    os.mkfifo(pipe)
    writer = threading.Thread(target=lambda: shutil.copyfileobj(open(large, "rb"), open(pipe, "wb")))
    writer.start()
    same(stub.over(f"cmp - '{large}' && {gives}", night=pipe)[::2], (0, ""), "by a pipe")
    writer.join()
    # nobody writes into the pipe: the end of the program is seen all the same
    held = os.open(pipe, os.O_RDWR)
    same(stub.over("exit 2", night=pipe)[0], 2, "a program that ends while a night is awaited")
    os.close(held)
    empty = os.path.join(stub.folder, "empty")
    with open(empty, "wb"):
        pass
    with open(stub.page + " of none", "wb") as file:
        file.write(joined(paged()))
    shown = "morning page: no lines, of empty\n"
    same(stub.over(f"cat > /dev/null; cat '{stub.page} of none'", night=empty)[:2], (0, shown), "an empty night")
    os.remove(large)


def unreadable_nights(stub):
    made_up(stub.folder, "echo it was started >&2; cat > /dev/null")
    for name, said in ((stub.folder + "/none", "No such file or directory"), (stub.folder, "it is a directory"), (stub.night + "/x", "Not a directory")):
        same(told(morning.main, ["--night", name]), (1, "", f"morning: {frame.visible(name)} cannot be read: {said}\n"), name)
    place = os.path.join(stub.folder, "no", "x.html")
    said = f"morning: {frame.visible(place)} cannot be written: its folder is not there\n"
    same(told(morning.main, ["--night", stub.night, "--html", place]), (1, "", said), "before the night")
    kept, os.read = os.read, failing(os.read)
    try:
        status, out, err = told(morning.main, ["--night", stub.night])
    finally:
        os.read = kept
    said = f"morning: {frame.visible(stub.night)} cannot be read to its end: Input/output error"
    same((status, out, err.split("\n")[-2]), (1, "", said), "a read that fails")


def failing(read):
    """os.read, but that large blocks of a file fail."""
    def reads(handle, count):
        if stat.S_ISREG(os.fstat(handle).st_mode) and count == morning.BLOCK:
            raise OSError(5, "Input/output error")
        return read(handle, count)
    return reads


# ---- how far it is
@contextmanager
def sooner(**seconds):
    """With less time between two updates, so that the test need not wait."""
    kept = {name: getattr(morning, name) for name in seconds}
    vars(morning).update(seconds)
    try:
        yield
    finally:
        vars(morning).update(kept)


def looked_at(master):
    """What is written to a terminal, until it is closed."""
    found = b""
    while True:
        try:
            data = os.read(master, 65536)
        except OSError:
            data = b""
        if not data:
            os.close(master)
            return found.decode()
        found += data


@contextmanager
def terminal(columns):
    """A terminal so wide, and a list that has what was written to it when it is closed; read all the while, since it holds little."""
    master, slave = pty.openpty()
    fcntl.ioctl(slave, termios.TIOCSWINSZ, struct.pack("HHHH", 24, columns, 0, 0))
    found = []
    reader = threading.Thread(target=lambda: found.append(looked_at(master)))
    reader.start()
    with open(slave, "w", encoding="utf-8") as stream:
        yield stream, found
    reader.join()


SO_FAR = re.compile(r"morning: [0-9.]+ [MG]B of [0-9.]+ [MG]B, ([0-9]+) %, [0-9]+ s(, [0-9]+ MB/s)?(, [0-9]+ s left)?(, ~[0-9.]+ M lines)?")


def progress_on_a_terminal(stub):
    """One line, written anew a few times a second, and left as it is at the end; what ./run says stands on lines of its own."""
    night = os.path.join(stub.folder, "longer")
    with open(night, "wb") as file:
        file.write(b"040000000000000000\n" * 300000)
    for columns, seconds in ((100, 0.25), (30, 0.12)):
        made_up(stub.folder, f"sleep {seconds}; echo proved >&2; head -c 2000000 > /dev/null; sleep {seconds - 0.1}; cat > /dev/null; cat '{stub.page}'")
        began = time.monotonic()
        with streams() as (out, _), terminal(columns) as (sys.stderr, found), sooner(OFTEN=0.1):
            same((morning.main(["--night", night]), out.getvalue().decode()), (0, night_shown("longer")), "shown")
        text, = found
        most = (time.monotonic() - began) / 0.1 + 2
        parts = [one.rstrip(" ") for one in re.split("[\r\n]+", text)]
        same((text.count("\n"), "proved" in parts, text.endswith("\r\n"), max(map(len, parts)) < columns), (2, True, True, True), text)
        said = [one for one in parts if one and one != "proved"]
        same(2 <= len(said) <= most, True, text)
        if columns == 100:
            found = [SO_FAR.fullmatch(one) for one in said]
            same((None in found, found[-1] and found[-1][1], found[-1] and found[-1][4]), (False, "100", ", ~0.3 M lines"), said)
            same([int(one[1]) for one in found], sorted(int(one[1]) for one in found), said)


def progress_elsewhere(stub):
    """A line now and then: none for a night that takes less; sooner here."""
    made_up(stub.folder, f"sleep 0.15; cat > /dev/null; cat '{stub.page}'")
    same(told(morning.main, ["--night", stub.night])[2], "", "a short night")
    same((morning.SELDOM, morning.OFTEN), (10.0, 0.25), "how often")
    began = time.monotonic()
    with sooner(SELDOM=0.05, OFTEN=0.05):
        err = told(morning.main, ["--night", stub.night])[2]
    lines, most = err.split("\n")[:-1], (time.monotonic() - began) / 0.05
    same((1 <= len(lines) <= most, [one for one in lines if not SO_FAR.fullmatch(one)], "\r" in err), (True, [], False), err)
    with streams():
        progress = morning.Progress(20 * 10 ** 9)
        progress.began -= 62
        for at in range(100):
            progress.passed(b"0" * 59 + b"\n")
            progress.flowing -= 0.01
        progress.bytes, progress.first = 12_400_000_000, 0
        progress.flowing = time.monotonic() - 61
        same(progress.text(79), "morning: 12.40 GB of 20.00 GB, 62 %, 62 s, 203 MB/s, 37 s left, ~206.7 M lines", "a long night")
        for room in range(1, 100):
            same(len(progress.text(room)) <= room and "morning: 12.40"[:room] in progress.text(room), True, room)
        progress.size = None
        same(progress.text(79), "morning: 12.40 GB, 62 s, 203 MB/s, ~206.7 M lines", "of a size that is not known")


# ---- the script as it is called
def copied(to):
    for path in ("docs/refusals.txt", "tools/refusals/listed.py", *(f"tools/frames/{name}.py" for name in ("ask", "show", "frame", "morning"))):
        os.makedirs(os.path.dirname(os.path.join(to, path)), exist_ok=True)
        shutil.copy(os.path.join(TOP, path), os.path.join(to, path))


def called(top, elsewhere):
    """From any directory, with what is lost told in one line."""
    command = f"'{top}/tools/frames/morning.py'"
    given, entry = max(frame.refusals()), frame.listed.read()[-1]
    with open(os.path.join(elsewhere, "page"), "wb") as file:
        file.write(joined(paged(refused=[(given, 3)])))
    made_up(top, "[ \"$*\" = morning ] && cmp - night >&2 && cat page")
    with open(os.path.join(elsewhere, "night"), "wb") as file:
        file.write(b"night\n" * 3)
    status, out, err = shell(f"{command} < page", elsewhere)
    flat = " ".join(out.split())
    same((status, err, f"refusal {given} 3 100.00 %" in flat, f"{entry.words} to do: {entry.remedy} " in flat), (0, "", True, True), "the list's own words")
    os.symlink(os.path.join(top, "tools", "frames", "morning.py"), os.path.join(elsewhere, "linked"))
    cases = [(f"./linked {words}", (0, out if "- <" in words else out.replace("3 lines", "3 lines, of night", 1), ""))
             for words in ("--night night < /", "--night night <&-", "--night - < night", "--night - < <(cat night)")]
    unread = "morning: standard input cannot be read: it is closed or a directory\n"
    cases += [(f"./linked {words}", (1, "", unread)) for words in ("< /", "<&-", "--night - < /", "--night - <&-")]
    over = "morning: --html would write over what is read; name another file\n"
    cases += [(f"./linked {words}", (2, "", over)) for words in ("--night - --html night < night", "--html page < page")]
    full, shut, broken = (f"morning: standard output cannot be written: {why}\n" for why in ("No space left on device", "it is closed", "Broken pipe"))
    cases += [(f"{command} {words} > /dev/full", (1, "", full)) for words in ("--night night", "--help", "--html x.html < page")]
    cases += [(f"{command} --night night >&-", (1, "", shut)), (f"{command} --night night 2>&- > /dev/full", (1, "", "")),
              (f"{{ sleep 0.2; {command} < page; echo $? >&2; }} | true", (0, "", broken + "1\n")),
              (f"LC_ALL=C PYTHONIOENCODING=ascii {command} < page", (0, out, ""))]
    with ThreadPoolExecutor(4) as pool:
        for (what, wanted), got in zip(cases, pool.map(lambda one: shell(one[0], elsewhere), cases)):
            same(got, wanted, what)
    same(os.path.exists(os.path.join(elsewhere, "x.html")), True, "the HTML is there where standard output is full")


def without_a_list(top, elsewhere):
    """The page is shown where the words of the refusals are not to be had, and so is that."""
    with open(os.path.join(top, "docs", "refusals.txt"), "w", encoding="utf-8") as file:
        file.write("")
    status, out, err = shell(f"'{top}/tools/frames/morning.py' --html x.html < page", elsewhere)
    said = "morning: the list of refusals cannot be read: docs/refusals.txt has no entry\n"
    same((status, f"    refusal {max(frame.refusals())}, not known here\n" in out, err), (1, True, said), "no list")


def on_a_terminal():
    """Its width, and colours where it has them; without them it is the plain text."""
    page, kept = morning.page_of(joined(paged(**WHOLE))), os.environ.copy()
    for columns, variables, coloured in ((60, {"TERM": "xterm"}, True), (200, {"TERM": "linux"}, True), (60, {"TERM": "dumb"}, False),
                                         (60, {"TERM": "xterm", "NO_COLOR": "1"}, False)):
        os.environ.pop("NO_COLOR", None)
        os.environ.update(variables)
        try:
            with streams(joined(paged(**WHOLE))) as (_, err), terminal(columns) as (sys.stdout, found):
                same((morning.main([]), err.getvalue()), (0, ""), columns)
        finally:
            os.environ.clear()
            os.environ.update(kept)
        text, = found
        plain = re.sub("\x1b\\[[0-9;]*m", "", text)
        same((plain != text, plain.split("\r\n")), (coloured, morning.text_of(page, morning.Night(), KNOWN, min(columns, 100)) + [""]), columns)
        same(text.count("\x1b[0m"), text.count("\x1b[") - text.count("\x1b[0m"), "every colour ends")


def interrupted(top, elsewhere):
    made_up(top, "echo at work >&2; exec sleep 60")
    command = [os.path.join(top, "tools", "frames", "morning.py"), "--night", "night"]
    with subprocess.Popen(command, cwd=elsewhere, stdout=subprocess.PIPE, stderr=subprocess.PIPE, start_new_session=True,
                          preexec_fn=lambda: signal.signal(signal.SIGINT, signal.SIG_DFL)) as process:
        same(process.stderr.readline(), b"at work\n", "./run is at work")
        os.killpg(process.pid, signal.SIGINT)
        out, err = process.communicate(timeout=60)
    same((process.returncode, out, err), (1, b"", b"morning: stopped\n"), "an interrupt")


# ---- the program itself
def night_line(drawn, numbers):
    """A line of a night, of every kind."""
    kind = drawn.randrange(10)
    record = (drawn.choice((0, -32768, 32767, drawn.randrange(-512, 513))), drawn.randrange(20), drawn.randrange(65536), drawn.randrange(65536))
    if kind < 6:
        return (struct.pack(">BhHHH", 0, *record) + drawn.randbytes(16 * drawn.choice((1, 1, 2, 3, 512)))).hex().upper().encode()
    if kind < 8:
        return struct.pack(">BhHHH", drawn.choice(numbers), *record).hex().upper().encode()
    return drawn.choice((b"", b"no answer", 18 * b"0", b"C8" + 16 * b"0", b"0" * 49, b"0000000014" + 40 * b"0", 50 * b"0" + b"\r", b"ab" + b"0" * 48,
                         b"05" + b"0" * 48))


def counted(lines, numbers):
    """The page of a night, counted here: docs/SCOPE.md has what makes a line readable."""
    longest, refused, totals, unreadable = 20 * [0], dict.fromkeys(numbers, 0), [0, 0, 0], 0
    for line in lines:
        try:
            (given, zeros, terms, rungs, backward), _ = frame.answer(line)
        except frame.Wrong:
            given, terms = None, 99
        if given is None or terms > 19 or given and given not in refused:
            unreadable += 1
        elif given:
            refused[given] += 1
        else:
            longest[terms] += 1
            totals = [total + one for total, one in zip(totals, (rungs, backward, abs(zeros)))]
    return dict(longest=longest, refused=list(refused.items()), totals=totals, unreadable=unreadable)


def by_program(folder):
    """./run morning over nights made here, and morning.py over it, both ways."""
    drawn, numbers, nights = random.Random(13), sorted(frame.refusals()), 0
    path, tool = os.path.join(folder, "night"), os.path.join(HERE, "morning.py")
    for size, end in ((0, b""), (1, b"\n"), (1, b""), (3000, b"\n"), (3000, b"")):
        lines = [night_line(drawn, numbers) for _ in range(size)]
        # a last line that is empty and lacks its newline is none
        lines = lines[:-1] + [18 * b"0" + 32 * b"F"] if lines else lines
        with open(path, "wb") as file:
            file.write(b"\n".join(lines) + end)
        made = paged(**counted(lines, numbers))
        done = subprocess.run([os.path.join(TOP, "run"), "morning"], stdin=open(path, "rb"), capture_output=True, check=False)
        same((done.returncode, done.stdout, done.stderr), (0, joined(made), b""), f"{size} lines")
        shown = showing(made)[1]
        same(shell(f"'{TOP}/run' morning < '{path}' | '{tool}'", folder), (0, shown, ""), f"{size} lines, through a pipe")
        heading, rest = shown.split("\n", 1)
        same(shell(f"'{tool}' --night night", folder), (0, f"{heading}, of night\n{rest}", ""), f"{size} lines, by --night")
        nights += 1
    return f", {nights} nights by ./run morning"


def in_process(folder):
    """With a list made up here."""
    kept, frame.listed.read = frame.listed.read, lambda: LIST
    try:
        whole_pages()
        drawn_pages(folder)
        base = paged([3, 4, 5, 6, 7, 8, 0, 0, 7, 20, 20, 20, 20, 20, 20, 20, 0, 0, 5, 5], [(1, 0), (5, 2), (8, 0), (12, 4)], (10, 20, 30), 6)
        bad_numbers(base)
        bad_orders(base)
        bad_sums(base)
        drawn_damage()
        bad_words(folder)
        helped()
        html_pages(folder)
        put_files(folder)
        stub = Stub(folder)
        nights(stub)
        large_nights(stub)
        unreadable_nights(stub)
        progress_on_a_terminal(stub)
        progress_elsewhere(stub)
        on_a_terminal()
        morning.RUN = stub.kept
    finally:
        frame.listed.read = kept


def main(words):
    with tempfile.TemporaryDirectory() as folder:
        in_process(folder)
        top, elsewhere = os.path.join(folder, "a copy"), os.path.join(folder, "elsewhere")
        os.makedirs(elsewhere)
        copied(top)
        called(top, elsewhere)
        interrupted(top, elsewhere)
        without_a_list(top, elsewhere)
        said = by_program(folder) if words == ["--program"] else ""
    print(f"tools/frames: {tried} tries of morning.py{said}")


if __name__ == "__main__":
    main(sys.argv[1:])
