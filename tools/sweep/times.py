#!/usr/bin/env python3
"""times.py [ROUNDS [SWEEPS]]: the time of the sweep program against reference.c, on one sweep of 4,096 and on SWEEPS of them in one input (1,000 unless told),
and of the function lichenoar_sweep against expected.h's, in turns: medians of ROUNDS (15 unless told; of the function 400 for each), and ours over theirs. The
program is target/host/sweep where there is one (tools/host/program.sh sweep), else target/bin/sweep; where that runs under the kit's emulator, it is said."""
import os
import statistics
import struct
import subprocess
import sys
import tempfile
import time

TOP = os.path.abspath(os.path.join(os.path.dirname(__file__), "..", ".."))
HERE = os.path.join(TOP, "tools", "sweep")
STEPS = 4096


def compiled(folder, name, *more):
    program = os.path.join(folder, name)
    subprocess.run(["cc", "-std=c11", "-O2", "-ffp-contract=off", "-Wall", "-Wextra", "-o", program, os.path.join(HERE, f"{name}.c"), *more], check=True)
    return program


def program_at_hand():
    """The words that start the program, none where there is none; what is to be said of it; whether it is emulated."""
    native, proved = (os.path.join(TOP, "target", where, "sweep") for where in ("host", "bin"))
    if os.path.exists(native) and not (os.path.exists(proved) and os.path.getmtime(proved) > os.path.getmtime(native)):
        return [native], "compiled for this processor", False
    if not os.path.exists(proved):
        return None, "there is no target/bin/sweep: only the reference is timed", False
    script = '. tools/host/kit.sh; printf "%s\\n" "${kit_command[@]}"'
    told = subprocess.run(["bash", "-c", script], cwd=TOP, stdout=subprocess.PIPE, text=True, check=True).stdout
    words = [word for word in told.split("\n") if word]
    emulated = any("qemu" in os.path.basename(word) for word in words)
    return words + [proved], "under the emulator, the reference is not: no measure, the function's ratio is" if emulated else "target/bin/sweep", emulated


def requests(number):
    """Sweeps of K, scaled, two orders, from near 0 to 30 in re."""
    made = (struct.pack(">BBHdddddH", 1, 1, 2, 0.25, 0.01 + 0.001 * i, -20.0, 30.0, 0.003 * i, STEPS) for i in range(number))
    return "".join(request.hex().upper() + "\n" for request in made)


def spent(words, path):
    with open(path, "rb") as lines, open(os.devnull, "wb") as nowhere:
        begun = time.perf_counter()
        subprocess.run(words, stdin=lines, stdout=nowhere, check=True)
        return time.perf_counter() - begun


def program_times(folder, words, rounds, sweeps):
    """Medians in seconds, ours and the reference's, of `sweeps` sweeps in one input."""
    path = os.path.join(folder, "requests")
    with open(path, "w", encoding="ascii") as file:
        file.write(requests(sweeps))
    reference = [os.path.join(folder, "reference")]
    ours, theirs = [], []
    for turn in range(rounds):
        for of, held in ((words, ours), (reference, theirs))[:: 1 if turn % 2 else -1]:
            if of:
                held.append(spent(of, path))
    return statistics.median(ours) if ours else None, statistics.median(theirs)


def main():
    rounds = int(sys.argv[1]) if len(sys.argv) > 1 else 15
    sweeps = int(sys.argv[2]) if len(sys.argv) > 2 else 1000
    words, said, emulated = program_at_hand()
    with tempfile.TemporaryDirectory() as folder:
        compiled(folder, "reference")
        runs = min(rounds, 3) if emulated else rounds
        print(f"the program ({said}), a sweep of {STEPS}, medians of {runs} runs in turns with reference.c, the program's start included:")
        for number in (1, sweeps):
            ours, theirs = program_times(folder, words, runs, number)
            row = f"  {number} in one input: reference {1e6 * theirs / number:.1f} us a sweep"
            print(row + (f", ours {1e6 * ours / number:.1f} us, ratio {ours / theirs:.2f}" if ours else ""), flush=True)
        archive = os.path.join(TOP, "target", "host", "libcapi.a")
        if not os.path.exists(archive):
            print("the function: there is no target/host/libcapi.a (tools/host/archive.sh)")
            return
        told = subprocess.run([compiled(folder, "times", archive, "-lm"), str(400 * rounds)], stdout=subprocess.PIPE, text=True)
        if told.returncode:
            sys.exit(f"times.py: {told.stdout.strip() or 'times.c failed'}")
        ours, theirs, ratio, least, least_theirs = map(float, told.stdout.split())
        print(f"the function, compiled for this processor, a sweep of {STEPS}, medians of {400 * rounds} calls in turns with expected.h's:")
        print(f"  ours {ours:.0f} ns, theirs {theirs:.0f} ns, ratio {ratio:.2f}; a line {ours / STEPS:.1f} and {theirs / STEPS:.1f} ns", end="; ")
        print(f"least {least:.0f} and {least_theirs:.0f} ns")


main()
