#!/usr/bin/env python3
"""scan.py: the three random scans whose figures docs/DIFFERENCES.md gives, through the program that run.sh FORTRAN built. Each has its own seed. How far it is stands on standard error."""
import math
import os
import random
import re
import struct
import subprocess
import sys
from collections import Counter
from mpmath import mp, mpc, mpf
from truth import k

PROGRAM = os.path.join(os.path.dirname(os.path.abspath(__file__)), "../../target/differences/cargo/release/differences")


def run(calls):
    """For each (scaled, n, v, re, im): the rows `644` and `here`, each a verdict and its printed entries."""
    lines = "".join(f"K {s} {2 * n} " + " ".join(struct.pack(">d", x).hex() for x in rest) + "\n" for s, n, *rest in calls)
    rows = []
    for line in subprocess.run([PROGRAM], input=lines, capture_output=True, text=True, check=True).stdout.split("\n"):
        if line.startswith("K "):
            rows.append({})
        elif m := re.match(r"  (given|text|644|here)\s+(.*)", line):
            rows[-1][m[1]] = row = (m[2], [])
        elif m := re.match(r"        \[\d+\] ([0-9A-F]{16}) \S+ ([0-9A-F]{16})", line):
            row[1].append(tuple(struct.unpack(">d", bytes.fromhex(x))[0] for x in m.groups()))
    return zip(calls, rows)


def tell(words):
    print("scan.py:", words, file=sys.stderr)


def refused(row):
    return int(re.search(r"number (\d+)", row["here"][0])[1])


def zeros(row):
    return int(re.search(r"zeros (-?\d+)", row[0])[1])


def anywhere():
    scaled, n, m = random.randint(0, 1), random.choice([1, 1, 2, 3, 10, 100]), random.randint(0, 6)
    v = random.choice([random.uniform(0, 3), random.uniform(0, 1000), random.randint(0, 1000), random.randint(0, 1000) + 0.5, random.uniform(0, 50)])
    if m == 4:
        size = 10 ** random.uniform(-308, 0)
        v = random.uniform(0, 4)
    elif m == 5:
        size = 10 ** random.uniform(2, 4.5)
    else:
        size = random.uniform(*[(0, 2), (2, 28.67), (28.67, 1000), (660, 1300), None, None, (640, 760)][m])
        scaled = 0 if m in (3, 6) else scaled
    a = random.choice([0, random.uniform(-math.pi / 2, math.pi / 2), math.pi / 2, -math.pi / 2, random.uniform(-0.01, 0.01)])
    return scaled, n, float(v), 0.0 if abs(a) == math.pi / 2 else size * math.cos(a), size * math.sin(a)


tell("60,000 calls anywhere")
random.seed(11)
print("refusal 7, 60,000 calls anywhere:", Counter("zeros" if zeros(row["644"]) else "values alone" for _, row in run([anywhere() for _ in range(60000)]) if refused(row) == 7))

tell("3,000 calls of large orders near underflow")
random.seed(7)
calls = []
for _ in range(3000):
    v, x = random.uniform(850, 1000), random.uniform(1020, 1130)
    calls.append((0, 1, v, x, random.choice([0.0, 10 ** random.uniform(-20, 0), random.uniform(-3, 3), random.uniform(-1000, 1000)])))
tally, off = Counter(), []
for place, (c, row) in enumerate(run(calls)):
    if place % 500 == 499:
        tell(f"{place + 1} of {len(calls)}")
    number = refused(row)
    tally["refused 7" if number == 7 else f"number {number}"] += 1
    if number == 0:
        mp.dps = 60
        true = k(mpf(c[2]), mpc(c[3], c[4]), 1)[0]
        error = float(abs(mpc(*row["here"][1][0]) - true) / abs(true))
        if error > 1e-9:
            off.append((error, c))
print("large orders near underflow, 3,000 calls:", dict(tally), "off", len(off), "worst", max(off), "|im| above 0.001:", sum(abs(c[4]) > 1e-3 for _, c in off))
for name, i in (("v", 2), ("re", 3), ("im", 4)):
    print("   ", name, min(abs(c[i]) for _, c in off), max(abs(c[i]) for _, c in off))

tell("20,000 calls at |z| near 1e-308")
random.seed(3)
calls = []
for _ in range(20000):
    size, a = 10 ** random.uniform(-309, -307.5), random.uniform(-math.pi / 2, math.pi / 2)
    calls.append((random.randint(0, 1), 1, random.uniform(0.5000001, 0.9999), size * math.cos(a), size * math.sin(a)))
sizes = [math.hypot(c[3], c[4]) for c, row in run(calls) if refused(row) == 0 and row["here"][1] == [(0.0, 0.0)]]
print("zero for an overflow of |2/z|, 20,000 calls:", len(sizes), min(sizes), max(sizes))
