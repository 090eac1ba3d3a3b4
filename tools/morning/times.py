#!/usr/bin/env python3
"""times.py [ROUNDS [LINES [PROGRAM]]]: the time of the morning program beside plain.c compiled by cc -O2 and beside wc -l, on the same four nights of LINES
lines (1,000,000 unless told) in files: answers of one pair, of two pairs, of mixed lengths, and refusals. In turns, the least of ROUNDS (9 unless told), the
start of the programs included; lines a second, and ours over theirs. The program is target/host/morning (tools/host/program.sh morning) unless told. The status
is 1 where it takes more than BOUND times as long as plain.c."""
import os
import random
import subprocess
import sys
import tempfile
import time

import count

HERE = os.path.dirname(os.path.abspath(__file__))
BOUND = 2.0
POOL = 4096


def answer(drawn, pairs):
    """As K answers: few zeros, a sum of 8 to 18 terms."""
    zeros = drawn.choice((0, 0, 0, drawn.randrange(pairs + 1)))
    head = b"00%04X%04X%04X%04X" % (zeros, drawn.randrange(8, 19), drawn.randrange(1512), drawn.choice((0, 17, 256)))
    return head + drawn.randbytes(16 * pairs).hex().upper().encode("ascii")


def mixed(drawn):
    """One answer in two has a pair, few have hundreds; one line in ten is refused, and one in a hundred is unreadable."""
    which = drawn.random()
    if which < 0.11:
        return refusal(drawn) if which < 0.1 else answer(drawn, 1)[:-1]
    return answer(drawn, min(512, int(1 / (1 - drawn.random()))))


def refusal(drawn):
    return b"%02X" % drawn.choice(count.NUMBERS) + b"0" * 16


NIGHTS = {
    "answers of one pair": lambda drawn: answer(drawn, 1),
    "answers of two pairs": lambda drawn: answer(drawn, 2),
    "mixed lengths": mixed,
    "refusals": refusal,
}


def written(path, make, lines):
    """A night of lines out of a pool of them, any after any."""
    drawn = random.Random(4)
    pool = [make(drawn) + b"\n" for _ in range(POOL)]
    with open(path, "wb") as file:
        for at in range(0, lines, POOL):
            file.write(b"".join(drawn.choices(pool, k=min(POOL, lines - at))))
    return os.path.getsize(path)


def spent(words, path):
    """Seconds, and what was written."""
    with open(path, "rb") as lines:
        begun = time.perf_counter()
        done = subprocess.run(words, stdin=lines, stdout=subprocess.PIPE, check=True)
        return time.perf_counter() - begun, done.stdout


def least(programs, path, rounds):
    """The least time of each, in turns; the pages of ours and of plain.c must be the same."""
    times, pages = {name: [] for name in programs}, {}
    for turn in range(rounds):
        for name, words in sorted(programs.items(), reverse=turn % 2 == 1):
            took, pages[name] = spent(words, path)
            times[name].append(took)
    if pages.get("ours", pages["plain.c"]) != pages["plain.c"]:
        sys.exit(f"times.py: the pages of {path} differ")
    return {name: min(held) for name, held in times.items()}


def main():
    rounds, lines = (int(word) for word in (sys.argv[1:3] + ["9", "1000000"][len(sys.argv[1:3]):]))
    ours = sys.argv[3] if len(sys.argv) > 3 else os.path.join(HERE, "..", "..", "target", "host", "morning")
    above = False
    with tempfile.TemporaryDirectory() as folder:
        plain, night = os.path.join(folder, "plain"), os.path.join(folder, "night")
        subprocess.run(["cc", "-std=c11", "-O2", "-Wall", "-Wextra", "-o", plain, os.path.join(HERE, "plain.c")], check=True)
        programs = {"plain.c": [plain], "wc -l": ["wc", "-l"], "ours": [ours]}
        if not os.path.exists(ours):
            print(f"times.py: there is no {os.path.relpath(ours)} (tools/host/program.sh morning): the others alone are timed")
            del programs["ours"]
        print(f"{lines} lines a night, the least of {rounds} in turns, the start included; millions of lines a second:")
        for what, make in NIGHTS.items():
            size = written(night, make, lines)
            took = least(programs, night, rounds)
            row = f"  {what}, {size / lines:.1f} bytes a line: " + ", ".join(f"{name} {lines / took[name] / 1e6:.1f}" for name in programs)
            if "ours" in took:
                ratio = took["ours"] / took["plain.c"]
                above |= ratio > BOUND
                row += f"; ours over plain.c {ratio:.2f}{', ABOVE ' + str(BOUND) if ratio > BOUND else ''}, over wc -l {took['ours'] / took['wc -l']:.2f}"
            print(row, flush=True)
    return 1 if above else 0


sys.exit(main())
