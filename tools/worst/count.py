#!/usr/bin/env python3
"""Exact instruction counts of calls, by valgrind's callgrind. count.py FILE prints each call with its instructions and its answer's counts, longest first."""
import os
import re
import subprocess
import sys
import tempfile

HERE = os.path.dirname(os.path.abspath(__file__))
ROOT = os.path.dirname(os.path.dirname(HERE))
BUILT = os.path.join(ROOT, "target", "worst")


def build(name):
    """Compiles one program of this folder against the archive for this processor."""
    os.makedirs(BUILT, exist_ok=True)
    program = os.path.join(BUILT, name)
    subprocess.run(["gcc", "-O2", "-std=c11", "-Wall", "-Wextra", "-Wl,-z,now", "-o", program, os.path.join(HERE, name + ".c"),
                    os.path.join(ROOT, "target", "host", "libcapi.a"), "-lm"], check=True)
    return program


def counted(program, calls):
    """The list of (instructions, call, [number, zeros, longest sum, rungs, backward]) of a list of lines."""
    with tempfile.TemporaryDirectory() as folder:
        listed = os.path.join(folder, "calls")
        with open(listed, "w") as f:
            f.write("\n".join(calls) + "\n")
        out = os.path.join(folder, "out")
        run = subprocess.run(["nice", "valgrind", "--tool=callgrind", "--collect-atstart=no", "--combine-dumps=yes", "--callgrind-out-file=" + out, program, listed],
                             check=True, capture_output=True, text=True)
        totals = [int(m) for m in re.findall(r"^totals: (\d+)", open(out).read(), re.M)]
        answers = [[int(w) for w in line.split()] for line in run.stdout.splitlines()]
    # the first two are of an empty function, one instruction long, called as K and I are and as log-gamma is
    around = {"k": totals[0] - 1, "i": totals[0] - 1, "g": totals[1] - 1}
    totals = [total - around[call[0]] for total, call in zip(totals[2:], calls)]
    assert len(totals) == len(calls) == len(answers), (len(totals), len(calls), len(answers))
    return list(zip(totals, calls, answers))


def main():
    calls = [line.strip() for line in open(sys.argv[1]) if line.strip()]
    for total, call, answer in sorted(counted(build("count"), calls), reverse=True):
        print(total, call, *answer)


if __name__ == "__main__":
    main()
