#!/bin/sh
# Shell first: Python cannot start where standard input is a directory.
''':'
if [ -d /dev/stdin ]; then echo 'show: standard input cannot be read: it is a directory' >&2; exit 1; fi
exec python3 "$0" "$@"
'''
import math
import sys

from frame import Wrong, answer, decimal, digits, ended, lost, number, put, refusals, refused, say, value_of, visible

USAGE = """usage: tools/frames/show.py [ORDER]
Reads the answer lines of ./run from standard input and shows each as a table of decimal values with its counts, or its refusal in words.
  ORDER   the first order that was asked for, as 0.25 or bits:3FD0000000000000: the rows are then named by their orders
Values have 17 significant digits, which give the same f64 when they are read again, or are NaN, Infinity or -Infinity; docs/CHOOSING.md
says what the counts tell. Under an answer of I with orders that are not finished a line says how many and what to do.
A line that is no answer line is named on standard error, and the next one is shown. Status: 0 all shown, 1 a line was none or something
failed, 2 the words of the command cannot be taken.
"""


def counted(count, name):
    return f"{count} {name}" if count == 1 else f"{count} {name}s"


def rows(pairs, first):
    """A line each: the order, as many digits as it needs, or the place; both parts; and whether it is finished."""
    names = [f"entry {at}" if first is None else f"order {decimal(first + at)}" for at in range(len(pairs))]
    width = max(map(len, names))
    return [f"  {name:<{width}}  {digits(re):>24}  {digits(im):>24} i{'   not finished' if math.isnan(re) else ''}" for name, (re, im) in zip(names, pairs)]


def unfinished(pairs):
    """How many entries the steps of I did not come to. These hold not-a-numbers, which no finished entry does."""
    return sum(math.isnan(re) for re, _ in pairs)


def open_rows(without, orders):
    """The line below a table with rows that are not finished: how many, and what to do."""
    remedy = "ask plain if it was asked scaled, else at a modulus of 37 or less; another number of orders does not help"
    return f"not finished: {without} of {counted(orders, 'order')}, from the lowest up; no value stands there; {remedy}"


def shown(line, first, meanings):
    """The lines that show an answer line; Wrong where it is none."""
    (given, zeros, terms, rungs, backward), pairs = answer(line)
    if given:
        return [refused(given, meanings)]
    without = unfinished(pairs)
    entries = counted(len(pairs), "order") + (f", {without} not finished" if without else "")
    counts = f"longest sum {counted(terms, 'term')}, {counted(rungs, 'rung')}, {counted(backward, 'backward step')}"
    return [f"answered: {entries}; {abs(zeros)} set to zero; {counts}"] + rows(pairs, first) + ([open_rows(without, len(pairs))] if without else [])


def known(tool):
    """The meanings of the refusals, and 0; none of them and 1 where the list cannot be read."""
    try:
        return refusals(), 0
    except (OSError, ValueError) as wrong:
        say(f"{tool}: the list of refusals cannot be read: {wrong}")
        return {}, 1


def show_all(lines, first):
    meanings, status = known("show")
    for at, line in enumerate(lines, 1):
        ended = line.endswith(b"\n")
        line = line.removesuffix(b"\n")
        try:
            text = shown(line, first, meanings)
            if not ended and len(text) > 1:
                raise Wrong("it has no newline, which every answer line of ./run has, so that orders may have been cut off")
        except Wrong as wrong:
            say(f"show: line {at} is no answer line: {wrong}: {visible(line.decode('ascii', 'backslashreplace'))}")
            status = 1
            continue
        try:
            put("\n".join([f"frame {at}: {text[0]}"] + text[1:]) + "\n")
        except OSError as wrong:
            return lost("show", wrong)
    return status


def main(words):
    if words in (["--help"], ["-h"]):
        try:
            put(USAGE)
        except OSError as wrong:
            return lost("show", wrong)
        return 0
    try:
        if len(words) > 1:
            raise Wrong(f"{len(words)} words, one at most: the first order; see --help")
        first = value_of(number("the order", words[0])) if words else None
    except Wrong as wrong:
        say(f"show: {wrong}")
        return 2
    if sys.stdin is None:
        say("show: standard input cannot be read: it is closed")
        return 1
    try:
        return show_all(sys.stdin.buffer, first)
    except OSError as wrong:
        say(f"show: standard input cannot be read: {wrong.strerror or wrong}")
        return 1


if __name__ == "__main__":
    ended("show", main)
