#!/usr/bin/env python3
"""compare.py [--pieces] REFERENCE INPUT.. -- PROGRAM WORD..: runs the reference and the program on each input and compares standard output and standard error
byte for byte, and the status that the program writes to descriptor 3 with the one that the reference ends with. With --pieces an input comes through a pipe, a
few bytes at a time. Where something differs, shows the first request at which it does, and both outcomes."""
import os
import subprocess
import sys
import tempfile
import threading

PIECE = 1 << 20
SHOWN = 400


def pieces(data, pipe):
    """Hands the data on in pieces of 1 to 113 bytes."""
    at, size = 0, 1
    try:
        while at < len(data):
            pipe.write(data[at:at + size])
            pipe.flush()
            at, size = at + size, size % 113 + 1
        pipe.close()
    except BrokenPipeError:
        pass


class Run:
    """A program on an input; standard output comes piece by piece, the rest when it has ended."""

    def __init__(self, folder, name, words, data, in_pieces):
        self.paths = [os.path.join(folder, f"{name}.{end}") for end in ("in", "err", "status")]
        with open(self.paths[0], "wb") as file:
            file.write(data)
        script = 'exec "$@" 2> "$0.err" 3> "$0.status"' if in_pieces else 'exec "$@" < "$0.in" 2> "$0.err" 3> "$0.status"'
        where = subprocess.PIPE if in_pieces else subprocess.DEVNULL
        self.process = subprocess.Popen(["bash", "-c", script, os.path.join(folder, name), *words], stdin=where, stdout=subprocess.PIPE)
        if in_pieces:
            threading.Thread(target=pieces, args=(data, self.process.stdin), daemon=True).start()

    def read(self):
        return self.process.stdout.read(PIECE)

    def ended(self):
        """Standard error, what was written to descriptor 3, and the status."""
        self.process.stdout.close()
        status = self.process.wait()
        return [open(path, "rb").read() for path in self.paths[1:]] + [status]


class Compared:
    """Both programs on one input."""

    def __init__(self, reference, program, data, in_pieces=False):
        with tempfile.TemporaryDirectory() as folder:
            one, other = Run(folder, "reference", reference, data, in_pieces), Run(folder, "program", program, data, in_pieces)
            self.wrong, self.written = [], 0
            while True:
                wanted, got = one.read(), other.read()
                if wanted != got:
                    at = next((i for i, (a, b) in enumerate(zip(wanted, got)) if a != b), min(len(wanted), len(got)))
                    self.wrong.append(f"standard output from byte {self.written + at}")
                    break
                if not wanted:
                    break
                self.written += len(wanted)
            (self.told, said, refused), (told, status, ended) = one.ended(), other.ended()
            if self.wrong:
                return
            if refused not in (0, 1) or said:
                sys.exit(f"compare.py: the reference ended with {refused}")
            if told != self.told:
                self.wrong.append("standard error")
            if status != b"%d\n" % refused:
                self.wrong.append(f"descriptor 3, {status!r} where {refused} is wanted")
            if ended != 0:
                self.wrong.append(f"the program ended with {ended}")


def outcome(words, line):
    """What one request gives by itself."""
    with tempfile.TemporaryDirectory() as folder:
        run = Run(folder, "one", words, line, False)
        out = b"".join(iter(run.read, b""))
        told, status, ended = run.ended()
    return f"{out.count(10)} lines on standard output, {out[:SHOWN]!r}\n    standard error {told[:SHOWN]!r}, descriptor 3 {status!r}, ended with {ended}"


def first_difference(reference, program, data, in_pieces):
    """The least number of requests with which the two differ, by halving."""
    *whole, rest = data.split(b"\n")
    requests = [line + b"\n" for line in whole] + [rest] * bool(rest)
    low, high = 0, len(requests)
    while high - low > 1:
        middle = (low + high) // 2
        if Compared(reference, program, b"".join(requests[:middle]), in_pieces).wrong:
            high = middle
        else:
            low = middle
    if not requests:
        return "  the input is empty"
    line = requests[high - 1]
    text = f"  first at request {high}, {len(line)} bytes: {line[:SHOWN]!r}\n  by itself:\n"
    return text + f"  reference: {outcome(reference, line)}\n  program:   {outcome(program, line)}"


def main(words):
    in_pieces = words[:1] == ["--pieces"]
    words = words[in_pieces:]
    if "--" not in words or words.index("--") < 2 or words[-1] == "--":
        sys.exit(__doc__)
    split = words.index("--")
    reference, inputs, program = words[:1], words[1:split], words[split + 1:]
    requests = frames = refused = 0
    for path in inputs:
        with open(path, "rb") as file:
            data = file.read()
        both = Compared(reference, program, data, in_pieces)
        if both.wrong:
            print(f"compare.py: {path}: the two differ: {'; '.join(both.wrong)}\n{first_difference(reference, program, data, in_pieces)}")
            return 1
        requests += data.count(b"\n") + (data[-1:] not in (b"", b"\n"))
        frames += both.written // 57
        refused += both.told.count(b"\n")
    asked = f"{requests} requests in {len(inputs)} inputs{', in pieces' if in_pieces else ''}"
    print(f"compare.py: {asked}: {frames} frames and {refused} refusals, the same byte for byte, and the same status")
    return 0


sys.exit(main(sys.argv[1:]))
