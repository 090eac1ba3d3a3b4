#!/usr/bin/env python3
"""limit.py PROGRAM WORD..: gives the morning program as many lines as a page takes, 4,294,967,295, most of them empty, and in a second run answer lines behind
them, which are not counted and of which one line on standard error tells; holds it to what must come. Minutes long: not part of run.sh."""
import os
import subprocess
import sys
import tempfile
import time

import count

ANSWER = b"00FFFF00130001FFFF" + b"3FED02CD380D1770" * 2
REFUSED = b"0F0001001300020003"
FEW = 1000
EMPTY = b"\n" * (1 << 20)


def given(pipe, beyond):
    """The lines, through a pipe; a program that does not read them all is told by what it gives."""
    left = count.MOST_LINES - 2 * FEW
    try:
        pipe.write((ANSWER + b"\n" + REFUSED + b"\n") * FEW)
        while left:
            pipe.write(EMPTY[:left])
            left -= min(left, len(EMPTY))
        pipe.write((ANSWER + b"\n") * beyond)
        pipe.close()
    except BrokenPipeError:
        pass


def ran(words, beyond):
    with tempfile.TemporaryDirectory() as folder:
        name = os.path.join(folder, "run")
        process = subprocess.Popen(["bash", "-c", 'exec "$@" > "$0.out" 2> "$0.err" 3> "$0.status"', name, *words], stdin=subprocess.PIPE)
        given(process.stdin, beyond)
        ended = process.wait()
        return [open(f"{name}.{end}", "rb").read() for end in ("out", "err", "status")] + [ended]


def main():
    if len(sys.argv) < 2:
        sys.exit(__doc__)
    page = count.page([ANSWER, REFUSED] * FEW).replace(b"unreadable 0\n", b"unreadable %d\n" % (count.MOST_LINES - 2 * FEW))
    for beyond, told, status in ((0, b"", b"0\n"), (3, b"line 4294967296: refusal 15\n", b"1\n")):
        begun = time.perf_counter()
        if ran(sys.argv[1:], beyond) != [page, told, status, 0]:
            print(f"limit.py: {count.MOST_LINES} lines and {beyond} more: not as wanted")
            return 1
        print(f"limit.py: {count.MOST_LINES} lines and {beyond} more: as wanted, {time.perf_counter() - begun:.0f} s", flush=True)
    return 0


sys.exit(main())
