#!/usr/bin/env python3
"""times.py PEERS [RUNS]: times SciPy's kve, kv and iv on the workloads, array calls over the same arguments, one order after another. PEERS is the program of peers.c, which
prints the arguments. A run is the best of 20 rounds; a cell has the least / the median / the largest of RUNS runs."""
import statistics
import struct
import subprocess
import sys
import time

import numpy
from scipy import __version__, special

FUNCTIONS = {"a": (special.kve, 2), "b": (special.kve, 10), "B": (special.kv, 10), "d": (special.iv, 1), "D": (special.iv, 10)}


def asks(program, workload):
    lines = subprocess.run([program, "--inputs", workload], capture_output=True, text=True, check=True).stdout.split("\n")[:-1]
    rows = numpy.array([[struct.unpack(">d", bytes.fromhex(word))[0] for word in line.split()] for line in lines])
    return rows[:, 0], rows[:, 1] + 1j * rows[:, 2]


def best(function, count, v, z):
    """Nanoseconds a call, the best of 20 rounds."""
    spent = []
    for _ in range(20):
        begun = time.perf_counter()
        for i in range(count):
            function(v + i, z)
        spent.append(time.perf_counter() - begun)
    return min(spent) / len(z) * 1e9


def main():
    runs = int(sys.argv[2]) if len(sys.argv) > 2 else 7
    print(f"\nSciPy {__version__}, numpy {numpy.__version__}\n| workload | ns a call |\n|---|---|")
    for workload, (function, count) in FUNCTIONS.items():
        print(f"peers: SciPy, {workload}", file=sys.stderr)
        v, z = asks(sys.argv[1], workload)
        times = [best(function, count, v, z) for _ in range(runs)]
        print(f"| {workload} | {min(times):.0f} / {statistics.median(times):.0f} / {max(times):.0f} |")


if __name__ == "__main__":
    main()
