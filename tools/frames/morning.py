#!/bin/sh
# Shell first: Python cannot start where standard input is a directory.
''':'
[ ! -d /dev/stdin ] || exec python3 "$0" "$@" <&-
exec python3 "$0" "$@"
'''
import os
import re
import select
import stat
import subprocess
import sys
import tempfile
import textwrap
import time
from html import escape
from typing import NamedTuple

from ask import RUN
from frame import Wrong, ended, listed, lost, put, refused, say, visible

USAGE = """usage: ./run morning < NIGHT | tools/frames/morning.py [--html FILE]
       tools/frames/morning.py --night NIGHT [--html FILE]
Shows the page of a night of answer lines: how many were answered, refused and unreadable; the refused by number, with what it says and what
to do; the answered by the terms of their longest sum; rungs, backward steps and zeros in all, and the mean for each answered line.
  --night NIGHT   a file of answer lines, or - for standard input: passes it through ./run morning itself, and tells on standard error how
                  far it is. Without it the page comes from standard input
  --html FILE     writes the page as one HTML file too, which needs nothing else
A full bar is all lines in the first list and the largest count in the others; a dot is a count too small for one #. docs/CHOOSING.md says
what the counts tell.
Status: 0 shown, 1 it is no page or something failed, 2 the words cannot be taken; with --night that of ./run morning, where it is not 0.
"""
VALUED = ("--html", "--night")
MOST_LINES, MOST_TOTAL, MOST_NUMBER, LONGEST = 2 ** 32 - 1, 2 ** 64 - 1, 255, 20
TOTALS = {"rungs": "rungs", "backward": "backward steps", "zeros": "zeros"}
NUMBER = re.compile(rb"0|[1-9][0-9]*")
# far above a page, and far below a night that somebody forgot to pass through ./run
LARGEST = 1 << 16
# bytes passed on at a time; of so many blocks the lines of one are counted, since all of them would take as long as the feeding
BLOCK, SAMPLED = 1 << 20, 16
# seconds between two updates of how far it is, on a terminal and elsewhere
OFTEN, SELDOM = 0.25, 10.0
WIDE = 100
UNREADABLE = "unreadable: the layout is no answer line's, the number is not in the list, or the longest sum is above 19"
SUMS = "0: no sum was taken. docs/CHOOSING.md says what the counts tell"


class Page(NamedTuple):
    """The parts of a page: lines refused by number, lines answered by longest sum, totals by name."""
    answered: int
    refused: dict
    longest: list
    totals: dict
    unreadable: int

    def all_refused(self):
        return sum(self.refused.values())

    def lines(self):
        return self.answered + self.all_refused() + self.unreadable


class Night(NamedTuple):
    """What is told of a page beside its parts: the night's name, and why it may not be the whole of it; each may be empty."""
    name: str = ""
    doubt: str = ""


# ---- the words
def asked(words):
    """The options by name."""
    options, words = {}, list(words)
    while words:
        word = words.pop(0)
        if word not in VALUED:
            raise Wrong(f"{visible(word)} is no word of morning; see --help")
        if word in options:
            raise Wrong(f"{word} stands twice; see --help")
        if not words:
            raise Wrong(f"{word}: the file behind it is missing; see --help")
        name = words.pop(0)
        if not name or name.startswith("-") and (word, name) != ("--night", "-"):
            raise Wrong(f"{word}: {visible(name)} is no name of a file; write ./ before it if it is one")
        options[word] = name
    if "--html" in options and same_file(options["--html"], options.get("--night", "-")):
        raise Wrong("--html would write over what is read; name another file")
    return options


def same_file(name, read):
    try:
        return os.path.samefile(name, read if read != "-" else "/dev/stdin")
    except OSError:
        return False


# ---- the page, read
def seen(data):
    """Bytes on one line, whatever they are."""
    return visible(data.decode("ascii", "backslashreplace"))


class Lines:
    """The lines of a page, taken one after the other; at is the number of the one at hand."""

    def __init__(self, data):
        *self.lines, self.rest = data.split(b"\n")
        self.at = 0

    def ahead(self):
        """The next line; none where there is no whole one."""
        return self.lines[self.at] if self.at < len(self.lines) else None

    def wrong(self, text):
        return Wrong(f"line {self.at}: {text}")

    def take(self, name, most):
        """The number in the next line, which must have that name."""
        line = self.ahead()
        self.at += 1
        if line is None and self.rest:
            raise self.wrong(f"it has no newline, so that a part may be cut off: {seen(self.rest)}")
        if line is None:
            raise self.wrong(f"{name} is missing: the page ends before it")
        if line.endswith(b"\r"):
            raise self.wrong("it ends in a carriage return; take it away with tr -d '\\r'")
        if self.at == 1 and re.fullmatch(rb"[0-9A-F]{18,}", line):
            raise self.wrong("it is a line of a night and not of its page: pass the night through ./run morning, or name it behind --night")
        if not line.startswith(name.encode() + b" "):
            raise self.wrong(f"{name} is to stand here, and there is: {seen(line)}")
        digits = line[len(name) + 1:]
        if not NUMBER.fullmatch(digits):
            raise self.wrong(f"{name}: {seen(digits)} is no number as a page has them")
        if len(digits) > len(str(most)) or int(digits) > most:
            raise self.wrong(f"{name}: {seen(digits)} is above {most}")
        return int(digits)


def refused_in(lines):
    """The refused lines by number. Which numbers there are is not asked: a page may be of an older list or a newer one."""
    found = {}
    while not found or (lines.ahead() or b"").startswith(b"refused"):
        name = re.match(rb"refused ([1-9][0-9]{0,2}) ", lines.ahead() or b"")
        given = int(name[1]) if name else 0
        count = lines.take(f"refused {given or 'K'}", MOST_LINES)
        if not 1 <= given <= MOST_NUMBER:
            raise lines.wrong(f"{given or 'K'} is no refusal's number; these go from 1 to {MOST_NUMBER}")
        if found and given <= max(found):
            raise lines.wrong(f"refused {given} does not come after refused {max(found)}")
        found[given] = count
    return found


def page_of(data):
    """The page that the bytes are. Wrong where they are none."""
    if not data:
        raise Wrong("no page: nothing was read")
    lines = Lines(data)
    answered = lines.take("answered", MOST_LINES)
    by_number = refused_in(lines)
    longest = [lines.take(f"longest {terms}", MOST_LINES) for terms in range(LONGEST)]
    if sum(longest) != answered:
        raise lines.wrong(f"the {LONGEST} parts of longest add up to {sum(longest)}, and answered is {answered}")
    totals = {}
    for name in TOTALS:
        totals[name] = lines.take(name, MOST_TOTAL)
        if totals[name] and not answered:
            raise lines.wrong(f"{name} is {totals[name]}, and no line was answered")
    page = Page(answered, by_number, longest, totals, lines.take("unreadable", MOST_LINES))
    if page.lines() > MOST_LINES:
        raise lines.wrong(f"answered, refused and unreadable add up to {page.lines()}, above {MOST_LINES}")
    if lines.ahead() is not None or lines.rest:
        text = lines.rest if lines.ahead() is None else lines.ahead()
        lines.at += 1
        raise lines.wrong(f"text behind the page: {seen(text)}")
    return page


def standard_input():
    if sys.stdin is None:
        raise Wrong("standard input cannot be read: it is closed or a directory")
    return sys.stdin


def page_read():
    """The page on standard input."""
    try:
        data = standard_input().buffer.read(LARGEST)
    except OSError as wrong:
        raise Wrong(f"standard input cannot be read: {wrong.strerror or wrong}") from None
    return page_of(data)


# ---- the night, passed through ./run morning
def columns(stream):
    """Of a terminal; 80 where it does not say."""
    try:
        return os.get_terminal_size(stream.fileno()).columns or 80
    except OSError:
        return 80


def amount(count):
    return f"{count / 1e9:.2f} GB" if count >= 1e9 else f"{count / 1e6:.1f} MB"


class Progress:
    """How far a night is, told on standard error: on a terminal one line, written anew, elsewhere a line now and then."""

    def __init__(self, size):
        self.size, self.bytes, self.blocks, self.looked_at, self.newlines = size, 0, 0, 0, 0
        self.terminal = sys.stderr is not None and sys.stderr.isatty()
        self.began = self.told = self.flowing = time.monotonic()
        self.first, self.begun, self.shown = 0, False, 0

    def passed(self, block):
        """A block that was taken. The rate counts from the end of the first: before it the program may have been built."""
        if not self.blocks:
            self.first, self.flowing = len(block), time.monotonic()
        if self.blocks % SAMPLED == 0:
            self.looked_at += len(block)
            self.newlines += block.count(b"\n")
        self.blocks += 1
        self.bytes += len(block)

    def text(self, room):
        """How far it is; from the end on, what there is no room for is left out."""
        now = time.monotonic()
        rate = (self.bytes - self.first) / max(now - self.flowing, 1e-9)
        known = f" of {amount(self.size)}, {min(100, 100 * self.bytes // self.size)} %" if self.size else ""
        parts = [f"morning: {amount(self.bytes)}{known}", f"{now - self.began:.0f} s"]
        parts += [f"{rate / 1e6:.0f} MB/s"] if rate else []
        parts += [f"{(self.size - self.bytes) / rate:.0f} s left"] if rate and self.size and self.bytes < self.size else []
        parts += [f"~{self.bytes * self.newlines / self.looked_at / 1e6:.1f} M lines"] if self.newlines else []
        while len(", ".join(parts)) > room and len(parts) > 1:
            parts.pop()
        return ", ".join(parts)[:room]

    def tick(self):
        now = time.monotonic()
        if now - self.told < (OFTEN if self.terminal else SELDOM):
            return
        self.told = now
        if self.terminal:
            self.rewrite(self.text(columns(sys.stderr) - 1))
        else:
            say(self.text(WIDE))

    def rewrite(self, text, end=""):
        written(f"\r{text:<{self.shown}}{end}")
        self.begun, self.shown = True, len(text)

    def aside(self):
        """Takes the line away, so that another can stand there."""
        if self.shown:
            self.rewrite("", "\r")

    def __enter__(self):
        return self

    def __exit__(self, *_):
        """Leaves the line as it is at the end, where one was begun."""
        if self.begun:
            self.rewrite(self.text(columns(sys.stderr) - 1), "\n")


def written(text):
    try:
        print(text, end="", file=sys.stderr, flush=True)
    except OSError:
        pass


class Source:
    """A night that is open: to be closed, its name for people, and its size, None where that is not known. Wrong where it cannot be read."""

    def __init__(self, name):
        self.name = "standard input" if name == "-" else visible(name)
        try:
            self.handle = os.dup(standard_input().fileno()) if name == "-" else os.open(name, os.O_RDONLY)
            found = os.fstat(self.handle)
            self.size = found.st_size - os.lseek(self.handle, 0, os.SEEK_CUR) if stat.S_ISREG(found.st_mode) else None
            if stat.S_ISDIR(found.st_mode):
                raise IsADirectoryError("it is a directory")
        except OSError as wrong:
            raise Wrong(f"{self.name} cannot be read: {wrong.strerror or wrong}") from None

    def read(self):
        try:
            return os.read(self.handle, BLOCK)
        except OSError as wrong:
            raise Wrong(f"{self.name} cannot be read to its end: {wrong.strerror or wrong}") from None


class Said:
    """What the program says on standard error, passed on by whole lines."""

    def __init__(self, handle, progress):
        self.handle, self.progress, self.open, self.rest = handle, progress, True, b""

    def pass_on(self):
        data = os.read(self.handle, BLOCK)
        self.open = bool(data)
        *lines, self.rest = (self.rest + data).split(b"\n")
        if not data and self.rest:
            lines.append(self.rest)
        for line in lines:
            self.progress.aside()
            say(line.decode("utf-8", "backslashreplace"))


def fed(process, night, progress):
    """Passes the night on to a program in large blocks, until both are at their end, and what the program says. Whether it took the whole night."""
    to, said = process.stdin.fileno(), Said(process.stderr.fileno(), progress)
    os.set_blocking(to, False)
    data, block, more, taken = b"", b"", True, True
    while more or block or said.open:
        sources = ([said.handle] if said.open else []) + ([night.handle] if more and not block else [])
        ready, able, _ = select.select(sources, [to] if block else [], [], OFTEN)
        if said.handle in ready:
            said.pass_on()
        if night.handle in ready:
            data = night.read()
            block, more = memoryview(data), bool(data)
            if not more:
                process.stdin.close()
        try:
            if able:
                block = block[os.write(to, block):]
                if not block:
                    progress.passed(data)
        except BlockingIOError:
            pass
        except BrokenPipeError:
            block, more, taken = b"", False, False
        if more and not said.open and process.poll() is not None:
            more, taken = False, False
        progress.tick()
    return taken


def run_over(name):
    """What ./run morning writes for a night, its status, and whether it took the whole night."""
    night = Source(name)
    try:
        with tempfile.TemporaryFile() as out, Progress(night.size) as progress:
            with subprocess.Popen([RUN, "morning"], stdin=subprocess.PIPE, stdout=out, stderr=subprocess.PIPE, bufsize=0) as process:
                taken = fed(process, night, progress)
            out.seek(0)
            return out.read(LARGEST), process.returncode, taken
    except OSError as wrong:
        raise Wrong(f"./run morning cannot be run: {wrong.strerror or wrong}") from None
    finally:
        os.close(night.handle)


def page_by_run(name):
    """The page of a night, what is told of the night, and the status of ./run morning. Wrong has that status with it where it is not 0."""
    data, ran, taken = run_over(name)
    status = ran if ran >= 0 else 1
    shown = "" if name == "-" else visible(os.path.basename(name))
    try:
        if not data:
            raise Wrong(f"./run morning gave no page, and ended with {ran}")
        try:
            page = page_of(data)
        except Wrong as wrong:
            raise Wrong(f"what ./run morning gave is no page: {wrong}") from None
        if ran:
            return page, Night(shown, f"perhaps not the whole night: ./run morning ended with {ran}"), status
        if not taken:
            raise Wrong("./run morning ended with 0 before it had read the whole night")
        return page, Night(shown), 0
    except Wrong as wrong:
        wrong.status = status or 1
        raise


# ---- what both kinds of pages show
def entries():
    """The refusals by number, and 0; none of them and 1 where the list cannot be read."""
    try:
        return {one.number: one for one in listed.read()}, 0
    except (OSError, ValueError) as wrong:
        say(f"morning: the list of refusals cannot be read: {wrong}")
        return {}, 1


def hundredths(part, whole):
    """100 times the quotient, rounded, in whole numbers: totals have more digits than an f64."""
    return (200 * part + whole) // (2 * whole)


def share(part, whole):
    """Percent. What is not nothing is not shown as nothing, and what is not all not as all."""
    found = hundredths(100 * part, whole)
    if part and not found:
        return "<0.01 %"
    if part < whole and found == 10000:
        return ">99.99 %"
    return f"{found // 100}.{found % 100:02} %"


def mean(total, answered):
    found = hundredths(total, answered)
    return f"{found // 100:,}.{found % 100:02}" if found or not total else "<0.01"


def lines_of(count):
    return "no lines" if not count else "1 line" if count == 1 else f"{count:,} lines"


def heading(page):
    return f"morning page: {lines_of(page.lines())}"


def summary(page):
    return [("answered", page.answered), ("refused", page.all_refused()), ("unreadable", page.unreadable)]


def occurring(page):
    return [(given, count) for given, count in page.refused.items() if count]


def words_of(given, known):
    """What a refusal says, and what to do, if that is known."""
    return [known[given].words, f"to do: {known[given].remedy}"] if given in known else [refused(given, {})]


def absent(page, known):
    """Which numbers did not occur, and which of the list the page has no line for."""
    groups = (("did not occur", [given for given, count in page.refused.items() if not count]), ("not on this page", sorted(set(known) - set(page.refused))))
    return [f"{what}: {', '.join(map(str, numbers))}" for what, numbers in groups if numbers]


# ---- for a terminal
def bar(part, whole, room):
    if room < 4:
        return ""
    return "#" * ((2 * part * room + whole) // (2 * whole)) or ("." if part else "")


def rows(counts, whole, largest, width):
    """A line for each name and count: its share of the whole, and a bar, which is full for the largest."""
    names, figures = (max(map(len, column)) for column in ([name for name, _ in counts], [f"{count:,}" for _, count in counts]))
    room = width - names - figures - 16
    return [f"  {name:<{names}}  {count:>{figures},}  {share(count, whole):>8}  {bar(count, largest, room)}".rstrip() for name, count in counts]


def refused_text(page, known, width):
    counts = occurring(page)
    if not counts:
        yield "refused: none"
        return
    yield "refused, by number; share of the refused"
    whole, digits = page.all_refused(), max(len(str(given)) for given, _ in counts)
    shown = rows([(f"refusal {given:>{digits}}", count) for given, count in counts], whole, max(count for _, count in counts), width)
    for (given, _), row in zip(counts, shown):
        yield row
        yield from (f"    {line}" for line in words_of(given, known))
    yield from (f"  {line}" for line in absent(page, known))


def longest_text(page, width):
    if not page.answered:
        yield "answered: none"
        return
    yield "answered, by the terms of the longest sum; share of the answered"
    yield from rows([(f"{terms:>2}", count) for terms, count in enumerate(page.longest)], page.answered, max(page.longest), width)
    yield f"  {SUMS}"


def totals_text(page):
    yield "over the answered lines: in all, and the mean for each"
    figures = max(len(f"{total:,}") for total in page.totals.values())
    means = [mean(total, page.answered) for total in page.totals.values()]
    for (name, total), one in zip(page.totals.items(), means):
        yield f"  {TOTALS[name]:<14}  {total:>{figures},}  {one:>{max(map(len, means))}}"


def folded(line, width):
    """The line in lines that fit, what is folded two further in."""
    indent = " " * (len(line) - len(line.lstrip()) + 2)
    return [line] if len(line) <= width else textwrap.wrap(line, max(width, len(indent) + 1), subsequent_indent=indent)


def text_of(page, night, known, width):
    """The page as lines of text. Headings alone stand at the margin; no character is beyond ASCII but of the night's name."""
    out = [heading(page) + (f", of {night.name}" if night.name else "")] + ([night.doubt] if night.doubt else [])
    if page.lines():
        out += rows(summary(page), page.lines(), page.lines(), width)
        out += [f"  {UNREADABLE}"] if page.unreadable else []
        out += ["", *refused_text(page, known, width), "", *longest_text(page, width)]
        out += ["", *totals_text(page)] if page.answered else []
    return [piece for line in out for piece in folded(line, width)]


def painted(line):
    """Headings bold, bars in one colour of letter and ground: plain escape codes, for a terminal."""
    if line[:1].strip():
        return f"\x1b[1m{line}\x1b[0m"
    return re.sub(r"(  )(#+|\.)$", lambda found: f"{found[1]}\x1b[36{';46' if found[2] != '.' else ''}m{found[2]}\x1b[0m", line)


def shown_text(page, night, known):
    """The page for standard output: of a terminal its width, and colours where it has them."""
    terminal = sys.stdout is not None and sys.stdout.isatty()
    lines = text_of(page, night, known, min(WIDE, columns(sys.stdout)) if terminal else 80)
    if terminal and os.environ.get("TERM", "dumb") != "dumb" and not os.environ.get("NO_COLOR"):
        lines = map(painted, lines)
    return "".join(line + "\n" for line in lines)


# ---- for a browser
STYLE = """
:root{color-scheme:light dark;--ground:#fff;--ink:#1c2430;--soft:#566070;--rule:#d5dae1;--answered:#0072b2;--refused:#b84a00;--unreadable:#6b7280}
@media (prefers-color-scheme:dark){:root{--ground:#12161c;--ink:#e8ecf1;--soft:#a7b1bd;--rule:#343c47;
--answered:#58b0e3;--refused:#f0955a;--unreadable:#9aa4b2}}
*{box-sizing:border-box}
body{margin:0;background:var(--ground);color:var(--ink);font:1rem/1.45 system-ui,"Segoe UI",Roboto,"Helvetica Neue",Arial,"DejaVu Sans",sans-serif}
main{max-width:56rem;margin:0 auto;padding:1.5rem 1rem 3rem;overflow-wrap:break-word}
h1{font-size:1.6rem;line-height:1.2;margin:0 0 .25rem}
h2{font-size:1.1rem;margin:2.25rem 0 .25rem}
p{margin:.25rem 0}
.soft{color:var(--soft);font-size:.9rem}
.doubt{border-left:4px solid var(--refused);padding-left:.75rem;font-weight:600}
table{width:100%;border-collapse:collapse;margin-top:.5rem;font-variant-numeric:tabular-nums}
th,td{padding:.3rem .75rem .3rem 0;text-align:right;font-weight:400;white-space:nowrap;border-top:1px solid var(--rule)}
th:first-child{text-align:left}
thead th,thead td{color:var(--soft);font-size:.9rem;border-top:0}
.bar{width:60%;padding-right:0}
.bar i{display:block;height:.85rem;min-width:2px;border-radius:2px;background:var(--answered)}
.refused i{background:var(--refused)}
.unreadable i{background:var(--unreadable)}
.words td{border-top:0;padding:0 0 .6rem;text-align:left;white-space:normal}
.totals th,.long{white-space:normal}
@media (max-width:30rem){th,td{padding-right:.5rem}table{font-size:.94rem}}
@media print{*{print-color-adjust:exact}}
"""
HEAD = """<!DOCTYPE html>
<html lang="en">
<head>
<meta charset="utf-8">
<meta http-equiv="Content-Security-Policy" content="default-src 'none'; style-src 'unsafe-inline'">
<meta name="viewport" content="width=device-width, initial-scale=1">
"""


def html_row(name, count, whole, largest, kind):
    inner = f'<i style="width:{min(100, count / largest * 100):.2f}%"></i>' if count else ""
    return (f'<tr class="{kind}"><th scope="row">{name}</th><td>{count:,}</td><td>{escape(share(count, whole))}</td>'
            f'<td class="bar" aria-hidden="true">{inner}</td></tr>')


def html_table(label, first, bodies):
    """A table of counts, with a name for those who do not see it; each body is a list of rows."""
    head = f'<thead><tr><th scope="col">{first}</th><th scope="col">lines</th><th scope="col">share</th><td class="bar" aria-hidden="true"></td></tr></thead>'
    return [f'<table aria-label="{label}">', head, *(line for body in bodies for line in ("<tbody>", *body, "</tbody>")), "</table>"]


def html_section(title, text, first, bodies):
    return [f"<h2>{title}</h2>", f'<p class="soft">{text}</p>', *html_table(title, first, bodies)]


def html_refused(page, known):
    counts = occurring(page)
    if not counts:
        return ["<h2>Refused</h2>", "<p>none</p>"]
    bodies = []
    for given, count in counts:
        words = "".join(f'<p class="{kind}">{escape(line)}</p>' for kind, line in zip(("says", "soft"), words_of(given, known)))
        bodies.append([html_row(given, count, page.all_refused(), max(count for _, count in counts), "refused"),
                       f'<tr class="words"><td colspan="4">{words}</td></tr>'])
    absences = [f'<p class="soft">{escape(line)}</p>' for line in absent(page, known)]
    return html_section("Refused, by number", "share of the refused", "refusal", bodies) + absences


def html_longest(page):
    if not page.answered:
        return ["<h2>Answered</h2>", "<p>none</p>"]
    body = [html_row(terms, count, page.answered, max(page.longest), "answered") for terms, count in enumerate(page.longest)]
    return html_section("Answered, by the terms of the longest sum", "share of the answered", "terms", [body]) + [f'<p class="soft">{escape(SUMS)}</p>']


def html_figure(text):
    """A cell; a number that a phone may have no room for can be broken behind a comma."""
    return f'<td class="long">{text.replace(",", ",<wbr>")}</td>' if len(text) > 15 else f"<td>{escape(text)}</td>"


def html_totals(page):
    if not page.answered:
        return []
    body = [f'<tr><th scope="row">{TOTALS[name]}</th>{html_figure(f"{total:,}")}{html_figure(mean(total, page.answered))}</tr>'
            for name, total in page.totals.items()]
    head = '<thead><tr><th scope="col">count</th><th scope="col">in all</th><th scope="col">mean a line</th></tr></thead>'
    return ["<h2>Over the answered lines</h2>", '<table class="totals" aria-label="Over the answered lines">', head, "<tbody>", *body, "</tbody>", "</table>"]


def html_of(page, night, known):
    """The page as one HTML file, which loads nothing."""
    title = escape(heading(page).capitalize())
    out = [f"<title>{title}</title>", f"<style>{STYLE}</style>", "</head>", "<body>", "<main>", f"<h1>{title}</h1>"]
    out += [f'<p class="soft">{escape(night.name)}</p>'] if night.name else []
    out += [f'<p class="doubt">{escape(night.doubt)}</p>'] if night.doubt else []
    if page.lines():
        out += html_table("All lines", "outcome", [[html_row(name, count, page.lines(), page.lines(), name) for name, count in summary(page)]])
        out += [f'<p class="soft">{escape(UNREADABLE)}</p>'] if page.unreadable else []
        out += html_refused(page, known) + html_longest(page) + html_totals(page)
    return HEAD + "\n".join(out + ["</main>", "</body>", "</html>"]) + "\n"


def place_of(name):
    """Where a file is to be written. Wrong where none can stand there."""
    path = os.path.realpath(name)
    if os.path.exists(path) and not os.path.isfile(path):
        raise Wrong(f"{visible(name)} cannot be written: it is no ordinary file")
    if not os.path.isdir(os.path.dirname(path)):
        raise Wrong(f"{visible(name)} cannot be written: its folder is not there")
    return path


def put_file(name, text):
    """Writes a file whole or not at all: beside it, and then in its place. Wrong where that cannot be."""
    path, beside = place_of(name), None
    try:
        handle, beside = tempfile.mkstemp(".new", ".morning-", os.path.dirname(path))
        with open(handle, "wb") as file:
            file.write(text.encode("utf-8"))
            file.flush()
            os.fchmod(handle, mode_of(path))
            os.fsync(handle)
        os.replace(beside, path)
        beside = None
    except OSError as wrong:
        raise Wrong(f"{visible(name)} cannot be written: {wrong.strerror or wrong}") from None
    finally:
        if beside:
            os.remove(beside)


def mode_of(path):
    """Who may read a file: as before, or as for any file that is new."""
    if os.path.exists(path):
        return os.stat(path).st_mode & 0o777
    mask = os.umask(0)
    os.umask(mask)
    return 0o666 & ~mask


# ---- all of it
def shown(options):
    """Shows the page, and writes it as HTML where that was asked for; the status."""
    if "--night" in options:
        # a night takes minutes: what would fail behind it is told before it
        if "--html" in options:
            place_of(options["--html"])
        page, night, status = page_by_run(options["--night"])
    else:
        page, night, status = page_read(), Night(), 0
    known, failed = entries()
    if "--html" in options:
        try:
            put_file(options["--html"], html_of(page, night, known))
        except Wrong as wrong:
            say(f"morning: {wrong}")
            failed = 1
    try:
        put(shown_text(page, night, known))
    except OSError as wrong:
        failed = lost("morning", wrong)
    return status or failed


def main(words):
    if "--help" in words or "-h" in words:
        try:
            put(USAGE)
        except OSError as wrong:
            return lost("morning", wrong)
        return 0
    try:
        options = asked(words)
    except Wrong as wrong:
        say(f"morning: {wrong}")
        return 2
    try:
        return shown(options)
    except Wrong as wrong:
        say(f"morning: {wrong}")
        return getattr(wrong, "status", 1)


if __name__ == "__main__":
    ended("morning", main)
