#!/usr/bin/env python3
"""malformed.py FOLDER: writes inputs for the morning program into the folder, one a file: lines of every length and some very long, answer lines with every
byte at every place, every number, every count of pairs, lines cut by the end of a block at every place, inputs ended in every way, and bytes of no meaning.
What each must give is had from count.py (compare.py). Says how many lines."""
import os
import random
import sys

NOT_NEWLINE = [bytes([c]) for c in range(256) if c != 10]
PAIR = b"3FED02CD380D17703FC94EB2DB77969A"
ANSWER = b"00000100120ABC00F3" + PAIR
NEGATIVE = b"00800000130001FFFF" + PAIR * 2
REFUSED = b"0B0000000000000000"
COUNTED = b"0F0001001300020003"
MOST = b"00FFFF0000FFFF0001" + PAIR * 512
BLOCK = 65536


def lines(*held):
    return b"".join(line + b"\n" for line in held)


def lengths():
    """Every length to 200, of digits, of answer lines and what follows them, and of NULs; long ones between answer lines."""
    yield from (filled[:length] for length in range(201) for filled in (b"0" * 200, ANSWER * 4, NEGATIVE * 3, REFUSED * 12, bytes(200), b"F" * 200))
    for length in (4096, 16401, 16402, 16403, 16404, 16434, 32768, 65535, 65536, 65537, 81938, 81939, 100000, 1 << 20):
        yield from (b"0" * length, ANSWER, REFUSED + PAIR * (length // 32), NEGATIVE, ANSWER + b" " * length, COUNTED, bytes(length) + ANSWER)


def pairs():
    """Each count of pairs to 515, and a few more; a digit more and less around the edges."""
    yield from (ANSWER[:18] + PAIR * count for count in (*range(516), 544, 1023, 1024, 1025, 2048, 4096))
    yield from (REFUSED + PAIR * count for count in (1, 2, 16, 511, 512, 513))
    for count in (0, 1, 2, 3, 15, 16, 17, 255, 256, 511, 512, 513):
        digits = ANSWER[:18] + PAIR * (count + 1)
        yield from (digits[:18 + 32 * count + by] for by in (-2, -1, 0, 1, 2, 8, 16, 30, 31))


def bytes_everywhere():
    """Each place of answer lines: every byte but a newline."""
    for base in (ANSWER, REFUSED, COUNTED):
        yield from (base[:at] + byte + base[at + 1:] for at in range(len(base)) for byte in NOT_NEWLINE)
    yield from (NEGATIVE[:at] + bytes([byte]) + NEGATIVE[at + 1:] for at in range(50, 82) for byte in b"/09:@AFG`afg\0\r \x80\xb0\xff")
    yield from (MOST[:at] + byte + MOST[at + 1:] for at in (0, 17, 18, 49, 50, 4097, 16369, 16370, 16400, 16401) for byte in (b"0", b"F", b"a", b"\r", b"\xc1"))


def numbers():
    """Every number, with no pair, one and two, with counts and without; every longest sum of one byte, and those whose low byte is one of the twenty."""
    for number in range(256):
        yield from (b"%02X%s%s" % (number, counts, PAIR * n) for counts in (b"0" * 16, ANSWER[2:18]) for n in range(3))
    sums = [*range(600), *(high << 8 | low for high in (0x10, 0x13, 0x7F, 0x80, 0xFF) for low in range(32)), 1 << 15, 65535]
    for longest in sums:
        yield from (b"%s%04X%s" % (front, longest, behind) for front, behind in ((ANSWER[:6], ANSWER[10:]), (b"0F0000", b"0" * 8), (b"010000", b"0" * 7)))


def fields():
    """Each bit of each field alone, and the edges of the count of zeros."""
    alone = [b"%016X" % (1 << bit) for bit in range(64)]
    yield from (number + digits + PAIR * pairs for digits in alone for number, pairs in ((b"00", 1), (b"00", 2), (b"0C", 0)))
    yield from (b"00%04X%012X%s" % (zeros % 65536, 0, PAIR) for zeros in (*range(-40, 40), *range(32760, 32776), *range(255, 65536, 256)))


def around():
    """A byte more at either end or between, a byte less anywhere, lower case, signs and separators."""
    for byte in NOT_NEWLINE:
        yield from (made for base in (ANSWER, REFUSED) for made in (byte + base, base + byte, base[:8] + byte + base[8:], byte + base[1:] + byte))
    yield from (base[:at] + base[at + 1:] for base in (ANSWER, REFUSED) for at in range(len(base)))
    yield from (base[:at] + byte + base[at:] for base in (ANSWER, REFUSED) for at in range(len(base) + 1) for byte in (b"0", b" ", b"\0", b"\r"))
    yield from (ANSWER.lower(), NEGATIVE.lower(), REFUSED.lower(), b"0x" + ANSWER, b"+" + ANSWER[1:], b"-" + REFUSED[1:], ANSWER + b"\r", MOST + b"\r")
    yield from (b"\xef\xbb\xbf" + ANSWER, ANSWER.decode("ascii").encode("utf-16"), b"answered 1", b"unreadable 0", b"line 4294967296: refusal 15")


def drifting():
    """Lengths that drift against the reads of a program, so that reads end at every place of a line."""
    for turn in range(20000):
        length = 1 + turn * 7919 % 131
        yield ANSWER if length == 50 else b"0" * length
        if turn % 5 == 0:
            yield (NEGATIVE, REFUSED, ANSWER, COUNTED)[turn // 5 % 4]


def cut_by_blocks(line, places):
    """An input in which the end of a block of 64 KiB cuts the line at each of the places, answer lines and at most one other between."""
    made, at, apart = [], 0, 1 + 2 * len(line) // BLOCK
    for turn, place in enumerate(places, 1):
        empty = turn * apart * BLOCK - place - at
        assert empty >= 0 and place <= len(line) + 1, (turn, place)
        made += [lines(ANSWER) * (empty // 51), b"0" * (empty % 51 - 1) + b"\n" if empty % 51 else b"", lines(line)]
        at += empty + len(line) + 1
    return b"".join(made)


def noise():
    """Bytes of no meaning, newlines among them, and digits of no meaning."""
    drawn = random.Random(20)
    digits = b"0123456789ABCDEF\n"
    return drawn.randbytes(1 << 18) + bytes(digits[byte % 17] for byte in drawn.randbytes(1 << 18))


def endings():
    """Inputs that end in every way: a last line without its newline, empty lines, nothing at all."""
    tails = (b"", b"\n", b"\n\n", b"\r", b"\r\n", b"\0", b"0", ANSWER, ANSWER[:-1], ANSWER + b"0", ANSWER + b"\n", ANSWER + b"\n\n", ANSWER + b"\r\n")
    tails += (NEGATIVE, REFUSED, COUNTED, MOST, MOST + b"\n", MOST + b"0", MOST + PAIR, b"\n" * 70000, b"0" * 70000)
    yield from tails
    yield from (lines(COUNTED, NEGATIVE) + tail for tail in tails[1:])
    # a last line, or a long one, that ends where a read does, or a byte before or behind
    yield from (b"0" * (size - 51 + by) + b"\n" + ANSWER + end for size in (4096, BLOCK, 2 * BLOCK) for by in (-1, 0, 1) for end in (b"", b"\n"))
    yield from (b"0" * (BLOCK + by) + end for by in (-1, 0, 1) for end in (b"", b"\n"))


def main():
    if len(sys.argv) != 2:
        sys.exit(__doc__)
    inputs = {made.__name__: lines(*made()) for made in (lengths, pairs, bytes_everywhere, numbers, fields, around, drifting)}
    inputs["noise"] = noise()
    # enough for sums of more than 32 bits
    inputs["totals"] = lines(b"00800000130001FFFF" + PAIR, b"008000000CFFFF0001" + PAIR) * 66000
    inputs["cut-answers"] = cut_by_blocks(NEGATIVE, range(84))
    inputs["cut-refusals"] = cut_by_blocks(COUNTED, range(20))
    inputs["cut-long"] = cut_by_blocks(MOST, (*range(0, 16403, 977), 1, 17, 18, 19, 50, 16401, 16402, 16403))
    inputs["cut-too-long"] = cut_by_blocks(MOST + b"0" * 49200, (*range(0, 65000, 9973), 1, 16401, 16402, 16403, 16404, 65534))
    inputs.update((f"ending-{at:02}", data) for at, data in enumerate(endings()))
    for name, data in inputs.items():
        with open(os.path.join(sys.argv[1], name), "wb") as file:
            file.write(data)
    total = sum(data.count(b"\n") + (data[-1:] not in (b"", b"\n")) for data in inputs.values())
    print(f"malformed.py: {total} lines in {len(inputs)} inputs, {sum(map(len, inputs.values()))} bytes")


main()
