#!/usr/bin/env python3
"""lost.py WORD.. PROGRAM: runs a program, the frame, the sweep or the morning program by its file's name, where something is lost, and where nothing is, and holds to
docs/SCOPE.md and docs/DECISIONS.md what it writes, what it tells on standard error, and the status on descriptor 3. Prints the number of runs."""
import os
import subprocess
import sys
import tempfile
import tty

sys.path.insert(1, os.path.join(os.path.dirname(os.path.abspath(__file__)), "..", "refusals"))
import listed  # noqa: E402

PROGRAM = [os.path.abspath(word) if os.path.exists(word) else word for word in sys.argv[1:]]
NAME = os.path.basename(PROGRAM[-1]) if PROGRAM else ""
MANY = 20000
# what a file may grow to in a run that cuts a write short
LIMIT = 50 << 10


def page(lines, others=0):
    """The morning page of so many lines 00FFFF0012.., and of so many that are unreadable."""
    parts = [("answered", lines)] + [(f"refused {one.number}", 0) for one in listed.read()]
    parts += [(f"longest {terms}", lines if terms == 18 else 0) for terms in range(20)]
    parts += [("rungs", 3 * lines), ("backward", 4 * lines), ("zeros", lines), ("unreadable", others)]
    return "".join(f"{name} {count}\n" for name, count in parts).encode("ascii")


# a line, and what it gives on standard output; what is told of output that is lost; lines that are refused, with output, standard error and status
if NAME == "lichenoar":
    FRAME = b"01000001" + b"0" * 48
    ANSWER = b"040000000000000000\n"
    UNWRITTEN = b"lichenoar: the answers could not be written; the output is not complete\n"
    REFUSED = ("refused frames are answers", b"no frame\n" + FRAME, b"090000000000000000\n" + ANSWER, b"", b"0\n")
elif NAME == "sweep":
    FRAME = b"01000001" + b"0" * 80 + b"0001"
    ANSWER = b"01000001" + b"0" * 48 + b"\n"
    UNWRITTEN = b"sweep: the frames and refusals could not be written; the output is not complete\n"
    REFUSED = ("a refused request has a line on standard error", b"no request\n\n" + FRAME, ANSWER, b"request 1: refusal 9\nrequest 2: refusal 9\n", b"1\n")
elif NAME == "morning":
    FRAME = b"00FFFF001200030004" + b"3FF0000000000000" * 2
    UNWRITTEN = b"morning: the page could not be written\n"
else:
    sys.exit(__doc__)
UNREAD = b"%s: the input could not be read to its end; %s\n" % (NAME.encode(), b"there is no page" if NAME == "morning" else b"the output is not complete")
ALL = FRAME + b"\n"
WHOLE = page(MANY) if NAME == "morning" else ANSWER * MANY
# what is tried, the shell's redirections, the input, the answers (None: not kept), what is on standard error, the status (None: no descriptor 3)
CASES = [] if NAME == "morning" else [
    ("nothing lost", "", ALL * MANY, WHOLE, b"", b"0\n"),
    (REFUSED[0], "", *REFUSED[1:]),
    ("no input", "", b"", b"", b"", b"0\n"),
    ("no descriptor 3", "3>&-", ALL, ANSWER, b"", None),
    ("a full device", "> /dev/full", ALL * MANY, None, UNWRITTEN, b"1\n"),
    ("a full device, the last line alone", "> /dev/full", FRAME, None, UNWRITTEN, b"1\n"),
    ("a full device, nothing to write", "> /dev/full", b"", None, b"", b"0\n"),
    ("a closed output", ">&-", ALL, None, UNWRITTEN, b"1\n"),
    ("a closed input", "<&-", b"", b"", UNREAD, b"1\n"),
    ("a directory for input", "< /", b"", b"", UNREAD, b"1\n"),
    ("an input open for writing alone", "0> /dev/null", b"", b"", UNREAD, b"1\n"),
]
if NAME == "sweep":
    CASES += [
        ("a closed output, and refusals alone", ">&-", b"no request\n" * 3, None, b"".join(b"request %d: refusal 9\n" % k for k in (1, 2, 3)), b"1\n"),
        ("a refusal that cannot be told ends it", "2> /dev/full", ALL + b"no request\n" + ALL, ANSWER, b"", b"1\n"),
        ("a closed standard error, nothing refused", "2>&-", ALL * 2, ANSWER * 2, b"", b"0\n"),
    ]
if NAME == "morning":
    # there is a page of no lines too, and none of an input that was not read to its end
    CASES += [
        ("nothing lost", "", ALL * MANY, WHOLE, b"", b"0\n"),
        ("an unreadable line changes no status", "", b"no answer\n\n" + FRAME, page(1, 2), b"", b"0\n"),
        ("no input", "", b"", page(0), b"", b"0\n"),
        ("no descriptor 3", "3>&-", ALL, page(1), b"", None),
        ("a full device", "> /dev/full", ALL * MANY, None, UNWRITTEN, b"1\n"),
        ("a full device, no line", "> /dev/full", b"", None, UNWRITTEN, b"1\n"),
        ("a closed output", ">&-", ALL, None, UNWRITTEN, b"1\n"),
        ("an output open for reading alone", "1< /dev/null", ALL, None, UNWRITTEN, b"1\n"),
        ("a closed input", "<&-", b"", b"", UNREAD, b"1\n"),
        ("a directory for input", "< /", b"", b"", UNREAD, b"1\n"),
        ("an input open for writing alone", "0> /dev/null", b"", b"", UNREAD, b"1\n"),
        ("neither input nor output", "<&- >&-", b"", None, UNREAD, b"1\n"),
        ("a page that is lost where nothing can be told", "> /dev/full 2>&-", ALL, None, b"", b"1\n"),
        ("a closed standard error, nothing to tell", "2>&-", ALL, page(1), b"", b"0\n"),
    ]


def run(folder, words, data):
    """The program with its standard input from a file; output, standard error and descriptor 3 are files too, unless the words say otherwise."""
    for name, held in (("in", data), ("out", b""), ("err", b""), ("status", b"")):
        with open(os.path.join(folder, name), "wb") as f:
            f.write(held)
    script = 'cd "$0" && exec "$@" < in > out 2> err 3> status ' + words
    done = subprocess.run(["bash", "-c", script, folder, *PROGRAM])
    return [done.returncode] + [open(os.path.join(folder, name), "rb").read() for name in ("out", "err", "status")]


def run_limited(folder, before):
    """The same where no file may grow beyond LIMIT, and the output has something before: a write then takes a part, and the next one fails."""
    for name, held in (("in", ALL * MANY), ("out", before)):
        with open(os.path.join(folder, name), "wb") as f:
            f.write(held)
    script = f'cd "$0" && trap "" XFSZ && exec 3> status 2> err && ulimit -f {LIMIT >> 10} && exec "$@" < in >> out'
    done = subprocess.run(["bash", "-c", script, folder, *PROGRAM])
    return [done.returncode] + [open(os.path.join(folder, name), "rb").read() for name in ("out", "err", "status")]


def run_broken_off(folder):
    """The same where reads bring lines, and then fail: a terminal's, whose other side is closed."""
    ours, other = os.openpty()
    tty.setraw(other)
    os.write(other, ALL * 20)
    os.close(other)
    script = 'cd "$0" && exec "$@" > out 2> err 3> status'
    done = subprocess.run(["bash", "-c", script, folder, *PROGRAM], stdin=ours)
    os.close(ours)
    return [done.returncode] + [open(os.path.join(folder, name), "rb").read() for name in ("out", "err", "status")]


def main():
    with tempfile.TemporaryDirectory() as folder:
        for what, words, data, answers, told, status in CASES:
            code, out, err, said = run(folder, words, data)
            assert code == 0, (what, code)
            assert answers is None or out == answers, (what, "answers", out[:80])
            assert err == told, (what, "standard error", err)
            assert said == (status or b""), (what, "status", said)
        # a page is short: room for 24 bytes of it
        before = b"." * (LIMIT - 24) if NAME == "morning" else b""
        code, out, err, said = run_limited(folder, before)
        assert code == 0 and len(before) < len(out) < len(before + WHOLE) and (before + WHOLE).startswith(out), ("a short write", code, len(out))
        assert err == UNWRITTEN and said == b"1\n", ("a short write", err, said)
        if NAME == "morning":
            assert run_broken_off(folder) == [0, b"", UNREAD, b"1\n"], "an input that fails behind some lines"
        # a reader that goes away is a write that fails: the kit's programs ignore the signal
        with open(os.path.join(folder, "in"), "wb") as f:
            f.write(ALL * MANY)
        script = 'cd "$0" && "$@" < in 3> status | head -n 1 > out; echo "${PIPESTATUS[0]}"'
        if NAME == "morning":
            # a pipe would hold the page: here its reader is gone before
            script = 'cd "$0" && mkfifo gone && exec 4<> gone 5> gone 4<&- && "$@" < in 3> status >&5 5>&-; echo "$?"'
        done = subprocess.run(["bash", "-c", script, folder, *PROGRAM], stdout=subprocess.PIPE, stderr=subprocess.PIPE)
        assert done.stdout == b"0\n" and open(os.path.join(folder, "status"), "rb").read() == b"1\n", ("a reader gone", done.stdout)
        assert done.stderr == UNWRITTEN, ("a reader gone", "standard error", done.stderr)
    print("lost.py: %d runs, each told as docs/DECISIONS.md says" % (len(CASES) + 2 + (NAME == "morning")))


main()
