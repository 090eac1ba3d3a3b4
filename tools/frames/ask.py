"""What ./ask does: writes an asking frame from words, runs ./run on it, and shows the answer."""
import os
import subprocess

from frame import Wrong, answer, decimal, ended, framed, kind_of, lost, number, put, say, told, value_of, visible, whole
from show import known, shown, unfinished

RUN = os.path.join(os.path.dirname(os.path.abspath(__file__)), "..", "..", "run")
USAGE = """usage: ./ask K|I ORDER N RE [IM] [--scaled] [--frame]
Asks for N consecutive orders from ORDER on, at RE + IM i, and shows the answer as a table, or the refusal with what to do about it.
  K or I     which function
  ORDER      from 0 to 1000
  N          how many orders: 1 to 512
  RE, IM     the argument: RE from 0 to 32768, IM from -32768 to 32768 and 0 where it is left out
  --scaled   K times e^z, I times e^-RE
  --frame    writes the asking frame alone, for ./run
A number is decimal, as -0.75 or 1e-3, or the 16 hexadecimal digits of an f64, as bits:3FD0000000000000, or Infinity, -Infinity or NaN,
which are shown so too (inf and nan are taken as well; the sign of a NaN is dropped).
Status: 0 answered, 1 refused or something failed, 2 the words cannot be taken, 3 answered with orders that are not finished (of I alone).
"""
FIELDS = ("the kind", "the order", "the number of orders", "the real part", "the imaginary part")
UNFINISHED = 3
OPTIONS = ("--scaled", "--frame", "--help", "-h")


def asked(words):
    """The fields of what is asked: kind, scaled, count, and the bits of order, re and im; and whether the frame alone is wanted."""
    words, options = told(words, "ask", OPTIONS, FIELDS, 4)
    kind = kind_of(FIELDS[0], words[0])
    order = number(FIELDS[1], words[1])
    count = whole(FIELDS[2], words[2], 512, "a frame")
    parts = [number(field, word) for field, word in zip(FIELDS[3:], words[3:])]
    return (kind, "--scaled" in options, count, order, *parts, *([0] if len(parts) == 1 else [])), "--frame" in options


def heading(kind, scaled, count, order, re_part, im_part):
    """What was asked, for the line above an answer or a refusal."""
    factor = {"K": " times e^z", "I": " times e^-re"}[kind] if scaled else ""
    first = decimal(value_of(order))
    orders = f"order {first}" if count == 1 else f"{count} orders from {first}"
    im = decimal(value_of(im_part))
    im = f"- {im[1:]}" if im.startswith("-") else f"+ {im}"
    return f"{kind}{factor}, {orders}, at z = {decimal(value_of(re_part))} {im} i"


def answer_of(frame):
    """The answer line of ./run to one frame. Wrong where there is none."""
    try:
        done = subprocess.run([RUN], input=frame.encode("ascii") + b"\n", stdout=subprocess.PIPE, check=False)
    except OSError as wrong:
        raise Wrong(f"./run cannot be started: {wrong.strerror or wrong}") from None
    lines = done.stdout.split(b"\n")
    if len(lines) != 2 or lines[1]:
        raise Wrong(f"./run gave {len(lines) - 1} lines in place of one, and ended with {done.returncode}")
    return lines[0], done.returncode


def table(fields):
    """What is printed for an answer, and the status."""
    line, ran = answer_of(framed(*fields))
    meanings, status = known("ask")
    try:
        text = shown(line, value_of(fields[3]), meanings)
    except Wrong as wrong:
        raise Wrong(f"what ./run gave is no answer line: {wrong}: {visible(line.decode('ascii', 'backslashreplace'))}") from None
    if line[:2] != b"00":
        return text, 1
    if ran:
        say(f"ask: ./run answered, and ended with {ran}: something failed")
    return text, 1 if ran or status else UNFINISHED if unfinished(answer(line)[1]) else 0


def main(words):
    try:
        if "--help" in words or "-h" in words:
            text, status = [USAGE[:-1]], 0
        else:
            try:
                fields, frame_alone = asked(words)
            except Wrong as wrong:
                say(f"ask: {wrong}")
                return 2
            if frame_alone:
                text, status = [framed(*fields)], 0
            else:
                text, status = table(fields)
                text = [heading(*fields)] + text
    except Wrong as wrong:
        say(f"ask: {wrong}")
        return 1
    try:
        put("\n".join(text) + "\n")
    except OSError as wrong:
        return lost("ask", wrong)
    return status


if __name__ == "__main__":
    ended("ask", main)
