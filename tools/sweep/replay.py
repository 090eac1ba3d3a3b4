#!/usr/bin/env python3
"""replay.py: writes crates/sweep/stdin and crates/sweep/stdout, the requests that `rt ci` runs the program on and the frames that it must write.
The frames are worked out here, in this machine's own arithmetic, from docs/SCOPE.md, The sweep; nothing of the program is called. The numbers of the refusals
go to standard output, one line each, as the program tells them on standard error."""
import math
import os
import struct

TOP = os.path.abspath(os.path.join(os.path.dirname(__file__), "..", ".."))
NAN, INFINITY = math.nan, math.inf

# kind, scaling, n, order, first, last, steps
REQUESTS = [
    # written
    (1, 0, 1, 0.0, (1.0, 0.0), (2.0, 0.0), 5),
    (1, 1, 512, 999.5, (32768.0, -32768.0), (0.0, 32768.0), 300),
    (2, 0, 2, 0.1, (0.1, -0.3), (0.7, 0.2), 100),
    (2, 1, 3, 1000.0, (5e-324, 5e-324), (1.5e-323, -5e-324), 4),
    # -0: the order's and the real parts' are lost, an imaginary part's is kept by a sweep of one alone
    (1, 0, 4, -0.0, (-0.0, -0.0), (NAN, INFINITY), 1),
    (1, 0, 4, -0.0, (-0.0, -0.0), (-0.0, -0.0), 2),
    # a sweep of one looks at its first pair alone
    (2, 1, 7, 0.5, (3.5, -0.0), (-1.0, 40000.0), 1),
    # the step is rounded, and the last point with it
    (1, 0, 1, 2.5, (0.0, 0.0), (1.0, -1.0), 50),
    (1, 1, 9, 7.0, (30000.1, 1.0), (0.3, 1e-300), 7),
    # refused: 13, 9, 1, 2, 3, 11, 12, each alone
    (1, 0, 1, 0.0, (1.0, 0.0), (2.0, 0.0), 0),
    (1, 0, 1, 0.0, (1.0, 0.0), (2.0, 0.0), 4097),
    (0, 0, 1, 0.0, (1.0, 0.0), (2.0, 0.0), 3),
    (3, 0, 1, 0.0, (1.0, 0.0), (2.0, 0.0), 3),
    (1, 2, 1, 0.0, (1.0, 0.0), (2.0, 0.0), 3),
    (1, 0, 0, 0.0, (1.0, 0.0), (2.0, 0.0), 3),
    (1, 0, 513, 0.0, (1.0, 0.0), (2.0, 0.0), 3),
    (1, 0, 1, NAN, (1.0, 0.0), (2.0, 0.0), 1),
    (1, 0, 1, 0.0, (1.0, INFINITY), (2.0, 0.0), 1),
    (1, 0, 1, 0.0, (1.0, 0.0), (-INFINITY, 0.0), 2),
    (1, 0, 1, -5e-324, (1.0, 0.0), (2.0, 0.0), 3),
    (1, 0, 1, 1000.5, (1.0, 0.0), (2.0, 0.0), 3),
    (1, 0, 1, 0.0, (-5e-324, 0.0), (2.0, 0.0), 1),
    (1, 0, 1, 0.0, (1.0, 0.0), (-1.0, 0.0), 3),
    (1, 0, 1, 0.0, (1.0, 32769.0), (2.0, 0.0), 1),
    (1, 0, 1, 0.0, (1.0, 0.0), (32768.5, 0.0), 3),
    # refused by the first of many faults
    (0, 2, 0, NAN, (-40000.0, INFINITY), (-1.0, 0.0), 0),
    (0, 2, 0, NAN, (-40000.0, INFINITY), (-1.0, 0.0), 9),
    (1, 0, 0, NAN, (-40000.0, INFINITY), (-1.0, 0.0), 9),
    (1, 0, 1, 2000.0, (-40000.0, INFINITY), (-1.0, 0.0), 9),
    (1, 0, 1, 2000.0, (-40000.0, 0.0), (-1.0, 0.0), 9),
    (1, 0, 1, 2.0, (-40000.0, 0.0), (-1.0, 0.0), 9),
]


def request(kind, scaling, n, order, first, last, steps):
    return struct.pack(">BBHdddddH", kind, scaling, n, order, *first, *last, steps).hex().upper().encode("ascii")


def number(kind, scaling, n, order, first, last, steps):
    ends = [first] if steps == 1 else [first, last]
    if not 1 <= steps <= 4096:
        return 13
    if kind not in (1, 2) or scaling not in (0, 1):
        return 9
    if not 1 <= n <= 512:
        return 1
    if not all(map(math.isfinite, [order, *[part for end in ends for part in end]])):
        return 2
    if not 0 <= order <= 1000:
        return 3
    if any(re < 0 for re, _ in ends):
        return 11
    if any(abs(part) > 32768 for end in ends for part in end):
        return 12
    return 0


def frames(kind, scaling, n, order, first, last, steps):
    order, first, last = order + 0.0, (first[0] + 0.0, first[1]), (last[0] + 0.0, last[1])
    points = [first]
    if steps > 1:
        d = [(b - a) / float(steps - 1) for a, b in zip(first, last)]
        points = [tuple(a + float(j) * step for a, step in zip(first, d)) for j in range(steps)]
    return b"".join(struct.pack(">BBHddd", kind, scaling, n, order, *point).hex().upper().encode("ascii") + b"\n" for point in points)


def malformed():
    line = request(*REQUESTS[0])
    yield b""
    yield line[:-1]
    yield line + b"0"
    yield line + b"\r"
    yield line + line
    yield b"0" * 300
    yield line.lower()
    yield line[:-4] + b"00g1"
    yield line[:55] + b" " + line[56:]
    yield line[:56]
    yield bytes(range(128, 220))
    yield b"\0" * 92


def main():
    lines = [(request(*fields), number(*fields), frames(*fields) if number(*fields) == 0 else b"") for fields in REQUESTS]
    # malformed ones between the others, so that one that is not told apart moves what comes behind it
    for place, line in enumerate(malformed()):
        lines.insert(3 * place, (line, 9, b""))
    # the last line lacks its newline, and is written all the same
    fields = (2, 0, 1, 3.25, (2.0, 3.0), (4.0, 5.0), 3)
    lines.append((request(*fields), 0, frames(*fields)))
    where = os.path.join(TOP, "crates", "sweep")
    with open(os.path.join(where, "stdin"), "wb") as out:
        out.write(b"\n".join(line for line, _, _ in lines))
    with open(os.path.join(where, "stdout"), "wb") as out:
        out.write(b"".join(written for _, _, written in lines))
    for k, (_, refused, _) in enumerate(lines, 1):
        if refused:
            print(f"request {k}: refusal {refused}")


main()
