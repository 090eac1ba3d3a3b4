#!/usr/bin/env python3
"""answered.py WORD..: takes the frames of sweeps of 4,096 of K and I from target/bin/sweep, reads them back to the fields and the points, which are worked out
here, and hands them to target/bin/lichenoar: an answer line each, of number 0 or of a refusal that no sweep gives. The words start a program of the kit."""
import collections
import os
import struct
import subprocess
import sys

TOP = os.path.abspath(os.path.join(os.path.dirname(__file__), "..", ".."))
STEPS = 4096
# what a call can be refused by when the order, the count and the argument lie within the limits
LATER = {4, 5, 6, 7, 8}
# from 0, where K is infinite, and to where the series of I is not taken
SWEEPS = {
    "K": (1, 1, 2, 0.25, (0.0, 0.0), (30.0, -20.0)),
    "K from high to low, unscaled": (1, 0, 3, 12.5, (750.0, 40.0), (0.0, 0.0)),
    "I": (2, 0, 4, 2.5, (0.0, 0.0), (9.0, 12.0)),
}


def run(name, data):
    program = os.path.join(TOP, "target", "bin", name)
    return subprocess.run([*sys.argv[1:], program], input=data, stdout=subprocess.PIPE, check=True).stdout


def points(first, last):
    steps = [(b - a) / (STEPS - 1) for a, b in zip(first, last)]
    return [tuple(a + j * step for a, step in zip(first, steps)) for j in range(STEPS)]


def main():
    for what, (kind, scaling, n, order, first, last) in SWEEPS.items():
        asked = struct.pack(">BBHdddddH", kind, scaling, n, order, *first, *last, STEPS).hex().upper().encode("ascii")
        frames = run("sweep", asked + b"\n")
        lines = frames.split(b"\n")
        assert lines.pop() == b"" and len(lines) == STEPS and all(len(line) == 56 for line in lines), (what, len(lines))
        wanted = points(first, last)
        for place, (line, point) in enumerate(zip(lines, wanted)):
            read = struct.unpack(">BBHddd", bytes.fromhex(line.decode("ascii")))
            assert struct.pack(">BBHddd", *read) == struct.pack(">BBHddd", kind, scaling, n, order, *point), (what, place, read, point)
        answers = run("lichenoar", frames).split(b"\n")
        assert answers.pop() == b"" and len(answers) == STEPS, (what, len(answers))
        numbers = collections.Counter(int(answer[:2], 16) for answer in answers)
        for place, (answer, (re, im)) in enumerate(zip(answers, wanted)):
            number = int(answer[:2], 16)
            within = 0 <= re <= 32768 and abs(im) <= 32768
            # rounding may carry a point past an end
            assert number in ({0} | LATER if within else {11, 12}), (what, place, number)
            assert len(answer) == (18 + 32 * n if number == 0 else 18), (what, place, len(answer))
        told = ", ".join(f"number {number}: {count}" for number, count in sorted(numbers.items()))
        print(f"answered.py: {what}: {STEPS} frames read back to their points and answered: {told}")


main()
