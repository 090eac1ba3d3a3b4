#!/usr/bin/env python3
"""Exact instruction counts of the x86-64 archive, under the kit's emulator: emulated.py FILE prints each call with its instructions, in the file's order.

The emulator runs one instruction at a time and writes the address of each; those from the entry of the library's function to the return are counted. A repeated
string instruction counts once. On an x86-64 machine valgrind (count.py) gives the same without an emulator."""
import os
import subprocess
import sys
import tempfile

HERE = os.path.dirname(os.path.abspath(__file__))
ROOT = os.path.dirname(os.path.dirname(HERE))
KIT = '. tools/host/kit.sh; mkdir -p target/worst; '


def in_kit(command):
    return subprocess.Popen(["bash", "-eu", "-c", KIT + command], cwd=ROOT, stdout=subprocess.PIPE, text=True)


def ended(process):
    said = process.communicate()[0]
    assert process.returncode == 0, said
    return said


def totals_of(trace, entries):
    """The instructions from each entry to its return: a call is at most 7 bytes long, and the next instruction follows it."""
    totals, before, returns, running = [], 0, (0, 0), 0
    for line in trace:
        if not line.startswith("Trace"):
            continue
        at = int(line.split("/", 2)[1], 16)
        if running and returns[0] < at < returns[1]:
            totals.append(running)
            running = 0
        elif running:
            running += at != before
        elif at in entries:
            returns, running = (before, before + 8), 1
        before = at
    return totals


def run(listed, trace):
    return in_kit(f'nice "$kit_tools/bin/qemu-x86_64" -one-insn-per-tb -d exec,nochain -D {trace} '
                  f'"$kit_tools/lib/ld-linux-x86-64.so.2" --library-path "$kit_tools/lib" target/worst/marked {listed}')


def counted(calls):
    ended(in_kit("CPATH=bindings/c/kit kit_cc target/worst/marked tools/worst/marked.c"))
    with tempfile.TemporaryDirectory() as folder:
        none, listed, trace = (os.path.join(folder, name) for name in ("none", "calls", "trace"))
        open(none, "w").close()
        with open(listed, "w") as f:
            f.write("\n".join(calls) + "\n")
        # the addresses are the same in every run
        entries = {int(w, 16) for w in ended(run(none, "/dev/null")).split()[1:4]}
        os.mkfifo(trace)
        process = run(listed, trace)
        with open(trace) as f:
            totals = totals_of(f, entries)
        again = {int(w, 16) for w in ended(process).split()[1:4]}
    assert again == entries and len(totals) == len(calls), (again, entries, len(totals), len(calls))
    return totals


if __name__ == "__main__":
    lines = [line.strip() for line in open(sys.argv[1]) if line.strip()]
    for total, call in zip(counted(lines), lines):
        print(total, call)
