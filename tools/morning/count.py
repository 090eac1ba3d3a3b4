#!/usr/bin/env python3
"""count.py [FILE]: the morning page of the lines of a file, or of standard input, counted by a regular expression and dictionaries: the page on standard
output, refusal 15 on standard error, and the status 1 where there were lines beyond the limit. It is what run.sh holds the proved program to; the other scripts
take the rule of a line and the list of numbers from here."""
import collections
import re
import sys

# the numbers of docs/refusals.txt, to which run.sh holds them
NUMBERS = (*range(1, 14), 15)
TERMS = range(20)
MOST_LINES = 4294967295
LINE = re.compile(
    b"(?:(?P<answered>00)|(?P<refused>%s))" % b"|".join(b"%02X" % number for number in NUMBERS)
    + b"(?P<zeros>[0-9A-F]{4})"
    + b"(?P<longest>%s)" % b"|".join(b"%04X" % terms for terms in TERMS)
    + b"(?P<rungs>[0-9A-F]{4})(?P<backward>[0-9A-F]{4})"
    # the pairs of an answer, and of nothing else
    + b"(?(answered)(?:[0-9A-F]{32}){1,512})"
)
SUMMED = ("rungs", "backward", "zeros")


def lines_of(data):
    """The lines, without their newlines; behind the last newline there is one only where there are bytes."""
    *whole, rest = data.split(b"\n")
    return whole + [rest] * bool(rest)


def readable(line):
    return LINE.fullmatch(line) is not None


def magnitude(digits):
    return abs(int.from_bytes(bytes.fromhex(digits.decode("ascii")), "big", signed=True))


def counted(lines):
    """How many lines there are of each kind, and the sums over those answered."""
    kinds, sums = collections.Counter(), collections.Counter()
    for line in lines:
        found = LINE.fullmatch(line)
        if found is None:
            kinds["unreadable"] += 1
        elif found["refused"]:
            kinds["refused", int(found["refused"], 16)] += 1
        else:
            kinds["answered"] += 1
            kinds["longest", int(found["longest"], 16)] += 1
            sums["rungs"] += int(found["rungs"], 16)
            sums["backward"] += int(found["backward"], 16)
            sums["zeros"] += magnitude(found["zeros"])
    return kinds, sums


def page(lines):
    kinds, sums = counted(lines)
    parts = [("answered", kinds["answered"])]
    parts += [(f"refused {number}", kinds["refused", number]) for number in NUMBERS]
    parts += [(f"longest {terms}", kinds["longest", terms]) for terms in TERMS]
    parts += [(name, sums[name]) for name in SUMMED]
    parts += [("unreadable", kinds["unreadable"])]
    return "".join(f"{name} {number}\n" for name, number in parts).encode("ascii")


def outcome(data, most=MOST_LINES):
    """What the program must give: standard output, standard error and status."""
    lines = lines_of(data)
    told = b"line %d: refusal 15\n" % (most + 1) if len(lines) > most else b""
    return page(lines[:most]), told, int(bool(told))


def main():
    if len(sys.argv) > 2:
        sys.exit(__doc__)
    with open(sys.argv[1] if len(sys.argv) == 2 else 0, "rb") as file:
        out, told, status = outcome(file.read())
    sys.stdout.buffer.write(out)
    sys.stderr.buffer.write(told)
    return status


if __name__ == "__main__":
    sys.exit(main())
