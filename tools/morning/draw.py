#!/usr/bin/env python3
"""draw.py COUNT SEED: draws a night of COUNT lines onto standard output, the same for the same words. Two thirds are answer lines: answered, mostly of few
pairs, and refused by every number, with fields of every size. The others are damaged, each in one way, or are no answer lines at all. Says on standard error
how many were drawn of each kind, how many are readable by count.py, and fails where a kind was never drawn; from 3,000 lines on each is."""
import collections
import random
import sys
import textwrap

import count

DIGITS = b"0123456789ABCDEF"
# what lies beside the digits, lower case, and bytes that a terminal, a serial line or an editor leaves
BESIDE = b"/:@G`g"
STRANGE = (b"\0", b"\r", b"\t", b" ", b"\x0b", b"\x0c", b"\x1a", b"\x1b", b"\x7f", b"-", b"+", b".", b"x", b"X", b"O", b"l", b"a", b"f")
UNLISTED = [number for number in range(1, 256) if number not in count.NUMBERS]
EDGES = (0, 1, 2, 255, 256, 0x7FFE, 0x7FFF, 0x8000, 0x8001, 0xFFFE, 0xFFFF)
TOO_LONG_SUMS = (20, 21, 31, 32, 255, 256, 0x0113, 0x1300, 0x1000, 0x4000, 0x8000, 0x8013, 0xFF13, 0xFFFF)


class Night:
    """The lines of a night; each kind is a method, and its words are its name."""

    def __init__(self, seed):
        self.random = random.Random(seed).random
        # cells are cut from one long row of digits: drawing each digit would take a minute for a million lines
        self.row = random.Random(~seed).randbytes(1 << 19).hex().upper().encode("ascii")
        self.turns = collections.Counter()

    def below(self, limit):
        return int(self.random() * limit)

    def pick(self, things):
        return things[int(self.random() * len(things))]

    def turn(self, of, things):
        """The things in turn, so that none is left out."""
        self.turns[of] += 1
        return things[self.turns[of] % len(things)]

    def cells(self, digits):
        at = self.below(len(self.row) - digits + 1)
        return self.row[at:at + digits]

    def field(self):
        return self.pick(EDGES) if self.random() < 0.2 else self.below(65536) >> self.below(17)

    def head(self, number, longest=None):
        longest = self.below(20) if longest is None else longest
        return b"%02X%04X%04X%04X%04X" % (number, self.field(), longest, self.field(), self.field())

    def pairs(self):
        return self.pick((1, 1, 1, 1, 2, 2, 2, 3, 4, 1 + self.below(12)))

    def answer(self, pairs=None):
        return self.head(0) + self.cells(32 * (pairs or self.pairs()))

    def refusal(self):
        return self.head(self.turn("numbers", count.NUMBERS))

    def good(self):
        return self.refusal() if self.random() < 0.3 else self.answer()

    def put(self, line, byte):
        """The byte for another: at the front, at the end, in the head, or anywhere."""
        at = self.pick((0, len(line) - 1, self.below(min(18, len(line))), self.below(len(line))))
        return line[:at] + byte + line[at + 1:]

    # ---- readable
    def answered_as_K_answers(self):
        pairs = self.pairs()
        head = b"00%04X%04X%04X%04X" % (self.below(pairs + 1) * (self.random() < 0.1), 8 + self.below(11), self.below(1512), self.pick((0, 0, self.below(257))))
        return head + self.cells(32 * pairs)

    def answered_with_any_fields(self):
        return self.answer()

    def answered_with_each_longest_sum(self):
        return self.head(0, self.turn("longest", count.TERMS)) + self.cells(32)

    def answered_with_fields_at_their_edges(self):
        return b"00%04X%04X%04X%04X" % (self.turn("zeros", EDGES), self.pick((0, 19)), self.pick(EDGES), self.pick(EDGES)) + self.cells(32 * self.pairs())

    def refused_without_counts(self):
        return b"%02X" % self.turn("without", count.NUMBERS) + b"0" * 16

    def refused_with_counts(self):
        return self.refusal()

    def refused_with_the_longest_sum(self):
        return self.head(self.pick(count.NUMBERS), 19)

    # ---- damaged
    def a_number_not_listed(self):
        return self.head(self.pick((14, 16, 17, 31, 32, 128, 240, 255, self.pick(UNLISTED))))

    def a_number_not_listed_with_pairs(self):
        return self.head(self.pick((14, 16, self.pick(UNLISTED)))) + self.cells(32 * self.pairs())

    def answered_with_too_long_a_sum(self):
        return self.head(0, self.pick((20, self.pick(TOO_LONG_SUMS), 20 + self.below(65516)))) + self.cells(32 * self.pairs())

    def refused_with_too_long_a_sum(self):
        return self.head(self.pick(count.NUMBERS), self.pick((20, self.pick(TOO_LONG_SUMS), 20 + self.below(65516))))

    def a_digit_less(self):
        line = self.good()
        at = self.pick((0, len(line) - 1, self.below(len(line))))
        return line[:at] + line[at + 1:]

    def a_digit_more(self):
        line = self.good()
        at = self.pick((0, len(line), self.below(len(line))))
        return line[:at] + self.cells(1) + line[at:]

    def cut_short(self):
        line = self.answer()
        return line[:self.pick((self.below(len(line)), 17, 18, 19, 34, 49, len(line) - 2, len(line) - 16))]

    def its_beginning_lost(self):
        line = self.answer()
        return line[1 + self.below(len(line) - 1):]

    def refused_with_pairs(self):
        return self.refusal() + self.cells(32 * self.pairs())

    def answered_with_none(self):
        return self.head(0)

    def lower_case_throughout(self):
        line = self.good()
        return line.lower() if line.lower() != line else line[:-1] + b"a"

    def one_lower_case_digit(self):
        return self.put(self.good(), self.pick((b"a", b"b", b"c", b"d", b"e", b"f")))

    def a_byte_beside_the_digits(self):
        at = self.below(len(BESIDE))
        return self.put(self.good(), BESIDE[at:at + 1])

    def a_byte_above_127(self):
        return self.put(self.good(), bytes([self.pick((128 + self.below(128), 0x80 | self.pick(DIGITS)))]))

    def a_strange_byte(self):
        return self.put(self.good(), self.turn("strange", STRANGE))

    def any_other_byte(self):
        return self.put(self.good(), self.pick((bytes([self.below(10)]), bytes([11 + self.below(245)]))))

    def a_carriage_return_behind(self):
        return self.good() + b"\r"

    def blanks_around(self):
        blank = self.pick((b" ", b"\t", b"  "))
        return self.pick((blank + self.good(), self.good() + blank, self.good()[:18] + blank + self.good()[18:]))

    def no_bytes(self):
        return b""

    def two_lines_in_one(self):
        return self.good() + self.good()

    def an_asking_frame(self):
        return b"%02X%02X%04X" % (1 + self.below(2), self.below(2), 1 + self.below(512)) + self.cells(48)

    def a_request_for_a_sweep(self):
        return b"%02X%02X%04X" % (1 + self.below(2), self.below(2), 1 + self.below(512)) + self.cells(80) + b"%04X" % (1 + self.below(4096))

    def digits_of_any_length(self):
        return self.cells(self.below(140))

    def zeros_of_any_length(self):
        return b"0" * self.below(140)

    def words(self):
        return self.pick((b"answered 12", b"refused 15 0", b"frame 1: refusal 9", b"line 2: refusal 15", b"unreadable 0", b"\xef\xbb\xbf" + self.good()))

    # ---- long, and rare
    def answered_with_many_pairs(self):
        return self.answer(self.pick((1 + self.below(512), 16 + self.below(64), 1 << self.below(10), 127, 128, 255, 256, 257)))

    def answered_with_511_pairs(self):
        return self.answer(511)

    def answered_with_512_pairs(self):
        return self.answer(512)

    def answered_with_513_pairs(self):
        return self.answer(513)

    def answered_with_more_pairs_yet(self):
        return self.answer(self.pick((514, 520, 768, 1023, 1024, 1025, 2048, 514 + self.below(1024))))

    def answered_with_512_pairs_and_a_digit(self):
        return self.answer(512) + self.cells(self.pick((1, 1, 2, 31)))

    def answered_with_512_pairs_less_a_digit(self):
        return self.answer(512)[:-self.pick((1, 1, 2, 31))]

    def a_bad_digit_at_the_end_of_512_pairs(self):
        return self.answer(512)[:-1] + self.pick((b"g", b"a", b"\0", b"\r", b"\xff", b":"))

    def a_bad_digit_in_many_pairs(self):
        line = self.answer(1 + self.below(512))
        at = 18 + self.below(len(line) - 18)
        return line[:at] + self.pick((b"g", b"a", b"\0", b"\r", b"\xff", b":", b"@", b"`")) + line[at + 1:]

    def refused_with_512_pairs(self):
        return self.refusal() + self.cells(32 * 512)

    def very_long_of_digits(self):
        return self.head(0) + self.cells(self.turn("digits", (65504, 65536, 99982, 100000, 131072, 20000)))

    def very_long_of_other_bytes(self):
        return self.turn("other", (b"\0", b"x", b"\xff", b" ", b"g")) * self.turn("length", (16401, 16402, 16403, 16404, 100000, 65535, 65536, 65537))


def kinds():
    """The methods that draw lines, in the three groups, by where they stand."""
    names = [name for name in vars(Night) if not name.startswith("_")]
    starts = [names.index(first) for first in ("answered_as_K_answers", "a_number_not_listed", "answered_with_many_pairs")]
    return [[getattr(Night, name) for name in names[a:b]] for a, b in zip(starts, starts[1:] + [None])]


def main():
    if len(sys.argv) != 3:
        sys.exit(__doc__)
    lines, night = int(sys.argv[1]), Night(int(sys.argv[2]))
    whole, damaged, long = kinds()
    told, readable = collections.Counter(), 0
    for at in range(lines):
        group, of = ("long", long) if at % 250 == 0 else ("damaged", damaged) if night.random() < 1 / 3 else ("whole", whole)
        made = night.turn(group, of)
        line = made(night)
        sys.stdout.buffer.write(line + b"\n")
        told[made.__name__] += 1
        readable += count.readable(line)
    sys.stdout.buffer.flush()
    print(f"draw.py: {lines} lines, {readable} of them readable; {len(told)} kinds, the rarest {min(told.values(), default=0)} times", file=sys.stderr)
    said = "; ".join(f"{made.__name__.replace('_', ' ')} {told[made.__name__]}" for made in whole + damaged + long)
    print(textwrap.fill(said, 150, initial_indent="  ", subsequent_indent="  "), file=sys.stderr)
    never = [made.__name__ for made in whole + damaged + long if not told[made.__name__]]
    if never:
        sys.exit("draw.py: never drawn: " + "; ".join(never))


main()
