#!/usr/bin/env python3
"""Prints the table of the longest calls of docs/WORST-CASE.md: each call of longest.txt, its class, the answer's counts, its instructions in both archives and its time here."""
import os
import platform
import subprocess
import tempfile

import count
import emulated


def main():
    lines = [line.split("#") for line in open(os.path.join(count.HERE, "longest.txt")) if not line.startswith("#")]
    calls, classes = [call.strip() for call, _ in lines], [words.strip() for _, words in lines]
    arm = count.counted(count.build("count"), calls)
    x86 = emulated.counted(calls)
    with tempfile.NamedTemporaryFile("w", suffix=".txt") as f:
        f.write("\n".join(calls) + "\n")
        f.flush()
        said = subprocess.run([count.build("clock"), f.name], check=True, capture_output=True, text=True).stdout
    times = [line.split()[0] for line in said.splitlines()]
    print(f"| class | scaled, v, re, im, n | outcome | {platform.machine()} | x86-64 | µs |\n|---|---|---|---|---|---|")
    for words, (total, call, answer), other, time in zip(classes, arm, x86, times):
        kind, scaled, v, re, im, n = call.split()
        number, zeros, longest, rungs, backward = answer
        outcome = f"refusal {number}" if number else "" if kind == "g" else f"zeros {zeros}, sum {longest}, rungs {rungs}, backward {backward}"
        asked = v if kind == "g" else f"{scaled} {v} {re} {im} {n}"
        print(f"| {words} | {asked} | {outcome or 'answered'} | {total:,} | {other:,} | {time} |")


if __name__ == "__main__":
    main()
