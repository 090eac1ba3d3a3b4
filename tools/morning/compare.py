#!/usr/bin/env python3
"""compare.py [--pieces] PLAIN INPUT.. -- PROGRAM WORD..: counts each input by count.py, runs plain.c's program and the morning program on it, and holds both to
the count, byte for byte: standard output, standard error, and the status, which the morning program writes to descriptor 3. Of an input of many lines the
readable and the unreadable are given once more alone, so that no two mistakes make up for each other. With --pieces an input comes through a pipe, a few bytes
a read. Where something differs, shows the parts that do, and the first line at which they do."""
import array
import fcntl
import os
import subprocess
import sys
import tempfile
import termios
import threading
import time

import count

MANY = 1000
SHOWN = 200


def pieces(data, process):
    """Hands the data on in pieces of 1 to 113 bytes, the next when the one before is read."""
    pipe, at, size, left = process.stdin.fileno(), 0, 1, array.array("i", [0])
    try:
        while at < len(data):
            os.write(pipe, data[at:at + size])
            at, size = at + size, size % 113 + 1
            while fcntl.ioctl(pipe, termios.FIONREAD, left) == 0 and left[0] and process.poll() is None:
                time.sleep(0)
        process.stdin.close()
    except BrokenPipeError:
        pass


def ran(words, data, in_pieces):
    """Standard output, standard error, what was written to descriptor 3, and the status."""
    with tempfile.TemporaryDirectory() as folder:
        name = os.path.join(folder, "run")
        with open(f"{name}.in", "wb") as file:
            file.write(data)
        script = 'exec "$@" 2> "$0.err" 3> "$0.status"' + ("" if in_pieces else ' < "$0.in"')
        where = subprocess.PIPE if in_pieces else subprocess.DEVNULL
        process = subprocess.Popen(["bash", "-c", script, name, *words], stdin=where, stdout=subprocess.PIPE)
        if in_pieces:
            threading.Thread(target=pieces, args=(data, process), daemon=True).start()
        out = process.stdout.read()
        process.stdout.close()
        status = process.wait()
        return [out] + [open(f"{name}.{end}", "rb").read() for end in ("err", "status")] + [status]


def parts(wanted, got):
    """The lines of a page that differ."""
    wanted, got = wanted.split(b"\n"), got.split(b"\n")
    if len(wanted) != len(got):
        return [f"{len(got) - 1} lines on standard output where {len(wanted) - 1} are wanted"]
    return [f"{b.decode('ascii', 'replace')!r} where {a.decode('ascii')!r} is wanted" for a, b in zip(wanted, got) if a != b]


def wrong(words, data, wanted, in_pieces=False, says=True):
    """What the program gives that is not wanted. One that `says` its status writes it to descriptor 3, and ends with 0."""
    out, told, said, ended = ran(words, data, in_pieces)
    page, refused, status = wanted
    found = [] if out == page else parts(page, out)
    if told != refused:
        found.append(f"standard error, {told[:SHOWN]!r} where {refused!r} is wanted")
    if said != (b"%d\n" % status if says else b""):
        found.append(f"descriptor 3, {said[:SHOWN]!r} where {status} is wanted")
    if ended != (0 if says else status):
        found.append(f"the program ended with {ended}")
    return found


def inputs_of(data, apart=True):
    """The input, and where it has many lines those alone that are readable, and those that are not; with what each must give."""
    whole = count.outcome(data)
    yield "", data, whole
    lines = count.lines_of(data)
    if apart and len(lines) >= MANY:
        held = [], []
        for line in lines:
            held[count.readable(line)].append(line + b"\n")
        page, none = whole[0].rpartition(b"unreadable ")[0] + b"unreadable 0\n", count.page([])
        yield ", its readable lines", b"".join(held[1]), (page, b"", 0)
        yield ", its unreadable lines", b"".join(held[0]), (none.replace(b"unreadable 0", b"unreadable %d" % len(held[0])), b"", 0)


def first_difference(words, data, in_pieces, says):
    """The least number of lines with which something differs, by halving."""
    lines, low = [line + b"\n" for line in count.lines_of(data)], 0
    if not lines:
        return "  the input is empty"
    lines[-1] = lines[-1] if data.endswith(b"\n") else lines[-1][:-1]
    high = len(lines)
    while high - low > 1:
        middle = (low + high) // 2
        few = b"".join(lines[:middle])
        low, high = (low, middle) if wrong(words, few, count.outcome(few), in_pieces, says) else (middle, high)
    line = lines[high - 1]
    alone = "; ".join(wrong(words, line, count.outcome(line), in_pieces, says)) or "nothing differs"
    return f"  first at line {high}, {len(line)} bytes: {line[:SHOWN]!r}\n  by itself: {alone}"


def compared(programs, path, in_pieces):
    """Says what differs on an input, nothing where all is the same; each program with its name, and whether it says its status."""
    with open(path, "rb") as file:
        whole = file.read()
    for which, data, wanted in inputs_of(whole, not in_pieces):
        for name, words, says in programs:
            found = wrong(words, data, wanted, in_pieces, says)
            if found:
                return f"compare.py: {path}{which}: {name} and count.py differ:\n  {'; '.join(found[:8])}\n{first_difference(words, data, in_pieces, says)}"
    return ""


def main(words):
    in_pieces = words[:1] == ["--pieces"]
    words = words[in_pieces:]
    if "--" not in words or words.index("--") < 2 or words[-1] == "--":
        sys.exit(__doc__)
    split = words.index("--")
    programs = [("plain.c", words[:1], False), ("the program", words[split + 1:], True)]
    lines = size = 0
    for path in words[1:split]:
        found = compared(programs, path, in_pieces)
        if found:
            print(found)
            return 1
        with open(path, "rb") as file:
            data = file.read()
        lines, size = lines + len(count.lines_of(data)), size + len(data)
    print(f"compare.py: {lines} lines, {size} bytes in {split - 1} inputs{', in pieces' if in_pieces else ''}: the program, plain.c and count.py give the same")
    return 0


if __name__ == "__main__":
    sys.exit(main(sys.argv[1:]))
