#!/usr/bin/env python3
"""times.py [FRAMES [ROUNDS]]: times the frame program (target/host/lichenoar, tools/host/program.sh) against the same around the Rust text over std's functions (oracle/lines),
each on FRAMES frames, a million unless told, drawn as the workloads a and b of oracle/speed are: K scaled, a: v=0, n=2, re=im from 2^-7 to 2^6; b: v to 50, n=10, |z| from 0.1 to 50.
Wall time, best of ROUNDS, in microseconds a frame. Without oracle/target/release/lines (oracle/make.sh, then `cargo build --release --offline -p lines` in oracle/) ours alone."""
import math
import os
import subprocess
import sys
import time

import frame

ROOT = os.path.dirname(os.path.dirname(os.path.dirname(os.path.abspath(__file__))))
OURS = os.path.join(ROOT, "target", "host", "lichenoar")
THEIRS = os.path.join(ROOT, "oracle", "target", "release", "lines")
WORD = 2 ** 64 - 1


class Drawn:
    """splitmix64, seeded by the workload's letter, as oracle/speed has it."""

    def __init__(self, letter):
        self.state = 0x6B65727600000000 + ord(letter)

    def raw(self):
        self.state = self.state + 0x9E3779B97F4A7C15 & WORD
        x = self.state
        x = (x ^ x >> 30) * 0xBF58476D1CE4E5B9 & WORD
        x = (x ^ x >> 27) * 0x94D049BB133111EB & WORD
        return x ^ x >> 31

    def unit(self):
        return (self.raw() >> 11) * 2.0 ** -53

    def point(self, radius):
        while True:
            a, b = self.unit(), 2 * self.unit() - 1
            q = a * a + b * b
            if 0 < q <= 1:
                scale = radius / math.sqrt(q)
                return a * scale, b * scale

    def a(self):
        exponent = -7 + self.raw() % 13
        m = (1 + self.unit()) * 2.0 ** exponent
        return frame.asking("K", True, 0.0, 2, m, m)

    def b(self):
        v, radius = 50 * self.unit(), 0.1 + 49.9 * self.unit()
        return frame.asking("K", True, v, 10, *self.point(radius))


def best(program, path, frames, rounds):
    least = math.inf
    for _ in range(rounds):
        with open(path, "rb") as lines:
            begun = time.perf_counter()
            subprocess.run([program], stdin=lines, stdout=subprocess.DEVNULL, check=True)
            least = min(least, time.perf_counter() - begun)
    return least / frames * 1e6


def main():
    frames = int(sys.argv[1]) if len(sys.argv) > 1 else 1_000_000
    rounds = int(sys.argv[2]) if len(sys.argv) > 2 else 5
    folder = os.path.join(ROOT, "target", "frames")
    os.makedirs(folder, exist_ok=True)
    for letter in "ab":
        drawn = Drawn(letter)
        path = os.path.join(folder, letter)
        with open(path, "w", encoding="ascii") as file:
            file.writelines(getattr(drawn, letter)() + "\n" for _ in range(frames))
        ours = best(OURS, path, frames, rounds)
        if os.path.exists(THEIRS):
            theirs = best(THEIRS, path, frames, rounds)
            print(f"| {letter} | {ours:.2f} | {theirs:.2f} | {ours / theirs:.2f} |")
        else:
            print(f"| {letter} | {ours:.2f} |")


if __name__ == "__main__":
    main()
