#!/bin/sh
# Shell first: Python cannot start where standard input is a directory.
''':'
exec python3 "$0" "$@" < /dev/null
'''
import re
import struct
import subprocess
import tempfile

from ask import RUN
from frame import KINDS, Wrong, ended, kind_of, lost, number, put, refused, say, told, visible, whole
from show import counted, known

USAGE = """usage: tools/frames/sweep.py K|I ORDER N RE IM TO_RE TO_IM STEPS [--scaled] [--frames]
Writes the request of a sweep, 92 hexadecimal digits, or with --frames its asking frames, a line each, for ./run.
  K or I         which function
  ORDER          the first order, from 0 to 1000
  N              how many orders at each point: 1 to 512
  RE, IM         the first point: RE from 0 to 32768, IM from -32768 to 32768
  TO_RE, TO_IM   the last point, in the same limits; with one step it is not looked at
  STEPS          how many points: 1 to 4096
  --scaled       K times e^z, I times e^-RE
  --frames       has ./run sweep write the frames; a refused sweep has none, and the refusal is told with what to do about it
Point j, counted from 0, is first + j * ((last - first) / (STEPS - 1)), part by part, each operation rounded once: the points are even, and
the last may differ from TO_RE, TO_IM in its last digits and lie past it. A point that K or I refuses is written all the same.
A number is decimal, as -0.75 or 1e-3, or the 16 hexadecimal digits of an f64, as bits:3FD0000000000000, or Infinity, -Infinity or NaN.
Status: 0 written, 1 refused or something failed, 2 the words cannot be taken.
"""
FIELDS = ("the kind", "the order", "the number of orders", "the first real part", "the first imaginary part", "the last real part",
          "the last imaginary part", "the number of steps")
OPTIONS = ("--scaled", "--frames", "--help", "-h")
REQUEST = ">BBHQQQQQH"
REFUSED = re.compile(rb"request 1: refusal ([0-9]{1,3})")


def asked(words):
    """Kind, scaled, count, the bits of the order and of the four parts, and the steps; and whether the frames are wanted."""
    words, options = told(words, "sweep", OPTIONS, FIELDS, len(FIELDS))
    kind = kind_of(FIELDS[0], words[0])
    order = number(FIELDS[1], words[1])
    count = whole(FIELDS[2], words[2], 512, "a request")
    parts = [number(field, word) for field, word in zip(FIELDS[3:7], words[3:7])]
    steps = whole(FIELDS[7], words[7], 4096, "a request")
    return (kind, "--scaled" in options, count, order, *parts, steps), "--frames" in options


def requested(kind, scaled, count, order, re_part, im_part, to_re, to_im, steps):
    """The request, 92 digits, of the counts and of the bits of five numbers."""
    return struct.pack(REQUEST, KINDS[kind], 1 if scaled else 0, count, order, re_part, im_part, to_re, to_im, steps).hex().upper()


def swept(request):
    """What ./run sweep writes to a request, the number of its refusal or None, and its status. What else it says is passed on as it comes."""
    given = None
    try:
        with tempfile.TemporaryFile() as asking, tempfile.TemporaryFile() as frames:
            asking.write(request.encode("ascii") + b"\n")
            asking.seek(0)
            with subprocess.Popen([RUN, "sweep"], stdin=asking, stdout=frames, stderr=subprocess.PIPE) as process:
                for line in process.stderr:
                    found = REFUSED.fullmatch(line.rstrip(b"\n"))
                    if found:
                        given = int(found[1])
                    else:
                        say(line.decode("utf-8", "backslashreplace").rstrip("\n"))
            frames.seek(0)
            return frames.read(), given, process.returncode
    except OSError as wrong:
        raise Wrong(f"./run sweep cannot be run: {wrong.strerror or wrong}") from None


def frames_of(fields):
    """The frames of a sweep, all of them. Wrong where it is refused or something failed: then there are none."""
    text, given, ran = swept(requested(*fields))
    if given is not None:
        raise Wrong(refused(given, known("sweep")[0]))
    lines = text.split(b"\n")
    if len(lines) != fields[-1] + 1 or lines[-1] or ran:
        rest = " and a part of one" if lines[-1] else ""
        raise Wrong(f"./run sweep gave {counted(len(lines) - 1, 'line')}{rest} for {counted(fields[-1], 'step')}, and ended with {ran}")
    for at, line in enumerate(lines[:-1], 1):
        if not re.fullmatch(rb"[0-9A-F]{56}", line):
            raise Wrong(f"line {at} of ./run sweep is no asking frame: {visible(line.decode('ascii', 'backslashreplace'))}")
    return text.decode("ascii")


def main(words):
    try:
        if "--help" in words or "-h" in words:
            text = USAGE
        else:
            try:
                fields, frames = asked(words)
            except Wrong as wrong:
                say(f"sweep: {wrong}")
                return 2
            text = frames_of(fields) if frames else requested(*fields) + "\n"
    except Wrong as wrong:
        say(f"sweep: {wrong}")
        return 1
    try:
        put(text)
    except OSError as wrong:
        return lost("sweep", wrong)
    return 0


if __name__ == "__main__":
    ended("sweep", main)
