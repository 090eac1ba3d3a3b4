#!/usr/bin/env python3
"""malformed.py FOLDER: writes inputs for the sweep program into the folder, one a file: lines of every length and some very long, good requests with every byte
at every place, inputs cut and ended in every way, and bytes of no meaning. What each must give is had from reference.c (run.sh). Says how many lines."""
import os
import struct
import sys

NOT_NEWLINE = [bytes([c]) for c in range(256) if c != 10]


def request(kind=1, scaling=1, n=2, order=0.25, first=(1.5, -0.75), last=(10.0, 3.0), steps=3):
    return struct.pack(">BBHdddddH", kind, scaling, n, order, *first, *last, steps).hex().upper().encode("ascii")


GOOD = request()
ONE = request(2, 0, 512, 1000.0, (32768.0, -32768.0), (float("nan"), float("-inf")), 1)
REFUSED = request(steps=0)


def lines(*held):
    return b"".join(line + b"\n" for line in held)


def lengths():
    """Every length to 200, of digits, of a request and what follows it, and of NULs; long ones between good requests."""
    yield from (filled[:length] for length in range(201) for filled in (b"0" * 200, GOOD * 3, ONE * 3, bytes(200), b"F" * 200))
    yield from (REFUSED[:length] for length in range(93))
    for length in (4095, 4096, 4097, 65535, 65536, 65537, 100000, 1 << 20):
        yield from (b"0" * length, GOOD, (GOOD * (length // 92 + 1))[:length], ONE, GOOD + b" " * length, bytes(length) + GOOD)


def bytes_everywhere():
    """Each place of a request that is accepted, of a sweep of one, and of one that is refused: every byte but a newline."""
    for base in (GOOD, ONE, REFUSED):
        yield from (base[:at] + byte + base[at + 1:] for at in range(92) for byte in NOT_NEWLINE)


def malformed_before_all():
    """A bad digit beside every rule that a request can break: 9, whatever else there is."""
    broken = {"steps": 4097}, {"kind": 3}, {"n": 0}, {"order": float("inf")}, {"order": -1.0}, {"first": (-1.0, 0.0)}, {"last": (1.0, 4e4)}
    for made in (request(**rule) for rule in broken):
        yield from (made[:at] + bytes([byte]) + made[at + 1:] for at in range(92) for byte in b"afg \0\r/:@G`\xb0")


def around():
    """A byte more at either end or between, a byte less anywhere, lower case, signs and separators."""
    for byte in NOT_NEWLINE:
        yield from (byte + GOOD, GOOD + byte, GOOD[:8] + byte + GOOD[8:], byte + GOOD[1:] + byte, GOOD[:-1] + byte)
    yield from (GOOD[:at] + GOOD[at + 1:] for at in range(92))
    yield from (GOOD[:at] + GOOD[at:at + 1].lower() + GOOD[at + 1:] for at in range(92))
    yield from (GOOD[:at] + byte + GOOD[at:] for at in range(93) for byte in (b"0", b" ", b"\0", b"\r"))
    yield from (GOOD.lower(), ONE.lower(), b"0x" + GOOD[2:], b"+" + GOOD[1:], b"-" + GOOD[1:], GOOD + b"\r", ONE + b"\r")
    yield from (b"\xef\xbb\xbf" + GOOD, GOOD.decode("ascii").encode("utf-16"))


def drifting():
    """Lengths that drift against the reads of a program, so that reads end at every place of a line."""
    for turn in range(20000):
        length = 1 + turn * 7919 % 131
        yield GOOD if length == 92 else b"0" * length
        if turn % 5 == 0:
            yield (ONE, REFUSED, GOOD)[turn // 5 % 3]


def noise():
    """Bytes of no meaning, newlines among them, by splitmix64."""
    state, made = 20, []
    for _ in range(1 << 16):
        state = state + 0x9E3779B97F4A7C15 & 2 ** 64 - 1
        x = (state ^ state >> 30) * 0xBF58476D1CE4E5B9 & 2 ** 64 - 1
        made.append(struct.pack("<Q", x ^ x >> 27))
    return b"".join(made)


def endings():
    """Inputs that end in every way: a last line without its newline, empty lines, nothing at all."""
    tails = (b"", b"\n", b"\n\n", b"\r", b"\r\n", b"\0", b" ", b"0", GOOD, GOOD[:-1], GOOD + b"0", GOOD + b"\n", GOOD + b"\n\n", GOOD + b"\r\n")
    tails += (ONE, REFUSED, b"0" * 70000)
    yield from tails
    yield from (lines(GOOD) + tail for tail in tails[1:])
    yield from (lines(REFUSED, ONE) + tail for tail in tails[1:])
    # a last line that ends where a read does
    yield from (b"0" * (size - 93) + b"\n" + GOOD + end for size in (4096, 8192, 65536, 131072) for end in (b"", b"\n"))


def main():
    if len(sys.argv) != 2:
        sys.exit(__doc__)
    inputs = {made.__name__: lines(*made()) for made in (lengths, bytes_everywhere, malformed_before_all, around, drifting)}
    inputs["noise"] = noise()
    inputs["accepted"] = lines(*[GOOD, ONE] * 2000)
    inputs.update((f"ending-{at:02}", data) for at, data in enumerate(endings()))
    for name, data in inputs.items():
        with open(os.path.join(sys.argv[1], name), "wb") as file:
            file.write(data)
    total = sum(data.count(b"\n") + (data[-1:] not in (b"", b"\n")) for data in inputs.values())
    print(f"malformed.py: {total} lines in {len(inputs)} inputs")


main()
