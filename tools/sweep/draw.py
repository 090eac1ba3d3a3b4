#!/usr/bin/env python3
"""draw.py COUNT SEED: draws COUNT requests for the sweep program, 92 digits a line, onto standard output, the same for the same words. Three quarters are
accepted: ends of every shape, steps at their edges, most sweeps short. The others break one rule, each pair of rules that can meet, or many. Says on standard
error how many were drawn of each kind, and fails where a kind was never drawn; from 5,000 requests on each is."""
import collections
import itertools
import math
import struct
import sys
import textwrap

WORD = 2 ** 64 - 1
SIGN = 1 << 63
INFINITE = 0x7FF << 52
LARGEST = INFINITE - 1
ORDER_FIRST = (13, 9, 1, 2, 3, 11, 12)


def bits_of(value):
    return struct.unpack(">Q", struct.pack(">d", value))[0]


def value_of(bits):
    return struct.unpack(">d", struct.pack(">Q", bits))[0]


TOP_ORDER, TOP_PART, NORMAL = bits_of(1000.0), bits_of(32768.0), 1 << 52


class Drawn:
    """splitmix64."""

    def __init__(self, seed):
        self.state = seed & WORD

    def raw(self):
        self.state = self.state + 0x9E3779B97F4A7C15 & WORD
        x = self.state
        x = (x ^ x >> 30) * 0xBF58476D1CE4E5B9 & WORD
        x = (x ^ x >> 27) * 0x94D049BB133111EB & WORD
        return x ^ x >> 31

    def below(self, limit):
        return self.raw() % limit

    def pick(self, things):
        return things[self.raw() % len(things)]

    def unit(self):
        return (self.raw() >> 11) * 2.0 ** -53

    def sign(self):
        return self.raw() & SIGN

    # ---- what is accepted, as bits
    def magnitude(self, top, whole):
        """From 0 to top, whose value is `whole`: the edges, whole and half numbers, any pattern, any value."""
        which = self.below(12)
        if which < 5:
            return (0, 1, top, top - 1, NORMAL - 1 + self.below(3))[which]
        if which == 5:
            return 1 + self.below(NORMAL - 1) >> self.below(52)
        if which == 6:
            return bits_of(self.below(2 * whole + 1) / 2)
        if which == 7:
            return self.below(top + 1)
        if which == 8:
            return bits_of(10 * self.unit())
        return bits_of(whole * self.unit())

    def order(self):
        bits = self.magnitude(TOP_ORDER, 1000)
        return bits | self.sign() if bits == 0 else bits

    def part(self, real):
        """A part of an end; of a real part a zero alone may have a sign."""
        bits = self.magnitude(TOP_PART, 32768)
        return bits | self.sign() if bits == 0 or not real else bits

    def kind(self):
        return 1 + self.below(2)

    def scaling(self):
        return self.below(2)

    def count(self):
        return self.pick((1, 2, 511, 512, 1 + self.below(512), 1 + self.below(512), 256, 257, 255, 1 << self.below(10)))

    def steps(self):
        """Mostly short."""
        which = self.below(1000)
        for limit, steps in ((50, 1), (130, 2), (210, 3), (215, 4095), (222, 4096)):
            if which < limit:
                return steps
        if which < 226:
            return 200 + self.below(3895)
        return int(4 * 2 ** (5.5 * self.unit()))

    # ---- what is refused, as bits
    def not_finite(self):
        which = self.below(8)
        if which < 2:
            return INFINITE | self.sign()
        payload = (1, NORMAL - 1, NORMAL >> 1, (NORMAL >> 1) - 1, self.below(NORMAL - 1) + 1, 1 << self.below(52))[which - 2]
        return INFINITE | payload | self.sign()

    def above(self, top):
        """Finite, above top in magnitude, without a sign."""
        return top + self.pick((1, 2, 1 + self.below(LARGEST - top), 1 + self.below(NORMAL), NORMAL, LARGEST - top))

    def negative(self, most):
        """Below 0, at most `most` in magnitude."""
        return SIGN | self.pick((1, NORMAL, bits_of(1.0), most, most - 1, 1 + self.below(most), 1 + self.below(NORMAL)))

    def wrong_order(self):
        return self.above(TOP_ORDER) if self.below(2) else self.negative(LARGEST)


# ---- the shapes of the two ends, one part at a time; each gives bits for the first and the last
def free(d, real, steps):
    return d.part(real), d.part(real)


def equal(d, real, steps):
    bits = d.part(real)
    return bits, bits


def inward(bits, by, real):
    """`by` floats farther from 0, or the other way where that is past 0 or 32,768."""
    low = bits & ~SIGN
    moved = low + by
    if moved > TOP_PART or moved < 0:
        moved = low - by
    return moved if real else bits & SIGN | moved


def neighbours(d, real, steps):
    first = d.part(real)
    return first, inward(first, d.pick((1, -1, 2, -2, 3, -7)), real)


def tiny_difference(d, real, steps):
    """A difference that is a multiple of the least float, and less than one for each step in most cases."""
    first = d.below(4 * NORMAL) if d.below(2) else d.below(64)
    last = max(0, first + d.below(2 * steps + 1) - steps)
    sign = 0 if real else d.sign()
    return first | sign, last | sign


def subnormal_quotient(d, real, steps):
    """A normal difference that is subnormal when it is divided."""
    first = 0 if d.below(2) else d.below(NORMAL)
    last = NORMAL + d.below(NORMAL * max(1, int(math.log2(max(2, steps - 1)))))
    signs = (0, 0) if real else (d.sign(), d.sign())
    return d.pick(((first | signs[0], last | signs[1]), (last | signs[0], first | signs[1])))


def zeros(d, real, steps):
    return d.sign(), d.sign()


def from_zero(d, real, steps):
    return d.sign(), d.part(real)


def to_zero(d, real, steps):
    return d.part(real), d.sign()


def to_the_limit(d, real, steps):
    sign = 0 if real else d.sign()
    return d.part(real), TOP_PART - d.pick((0, 0, 0, 1, 2)) | sign


def from_the_limit(d, real, steps):
    sign = 0 if real else d.sign()
    return TOP_PART - d.pick((0, 0, 0, 1, 2)) | sign, d.part(real)


def past_the_limit(d, real, steps):
    """To 32,768 from where rounding carries the last point past it, if such an end is soon found."""
    for _ in range(40):
        first = 16384 * d.unit() if real else -32768 * d.unit()
        if steps > 1 and first + (steps - 1) * ((32768 - first) / (steps - 1)) > 32768:
            break
    sign = 0 if real else d.sign()
    return bits_of(first) ^ sign, TOP_PART | sign


def panel(d, real, steps):
    """What a panel would ask: decimals of two places."""
    first, last = d.below(3001) / 100, d.below(3001) / 100
    return bits_of(first) | (0 if real else d.sign()), bits_of(last) | (0 if real else d.sign())


SHAPES = (free, equal, neighbours, tiny_difference, subnormal_quotient, zeros, from_zero, to_zero, to_the_limit, from_the_limit, past_the_limit, panel, free)
FIELDS = ("kind", "scaling", "n", "order", "first re", "first im", "last re", "last im", "steps")
WIDTHS = (2, 2, 4, 16, 16, 16, 16, 16, 4)
# every rule that a request can break, and where
RULES = [(13, "steps"), (9, "kind"), (9, "scaling"), (1, "n"), (2, "order"), (2, "first re"), (2, "first im"), (2, "last re"), (2, "last im"), (3, "order"),
         (11, "first re"), (11, "last re"), (12, "first re"), (12, "first im"), (12, "last re"), (12, "last im")]
LAST_PAIRS = [[(one, "last re"), (other, "last im")] for one in (2, 11, 12) for other in (2, 12)] + [[(11, "last re"), (12, "last re"), (12, "last im")]]


def broken(d, number, field, beside=()):
    """A value of the field that breaks this rule and no later one; or, with the numbers beside it, those on the same field too."""
    if number == 13:
        return d.pick((0, 4097, 65535, 0x8001, 0x2000, 4097 + d.below(61439)))
    if field == "kind":
        return d.pick((0, 3, 255, 0x11, 0x81, 3 + d.below(253)))
    if field == "scaling":
        return d.pick((2, 255, 0x10, 0x80, 2 + d.below(254)))
    if number == 1:
        return d.pick((0, 513, 514, 1024, 65535, 0x0201, 0x8001, 513 + d.below(65023)))
    if number == 2:
        if beside:
            return INFINITE | (SIGN if 11 in beside else d.sign() if field.endswith("im") or field == "order" else 0)
        return d.not_finite()
    if number == 3:
        return d.wrong_order()
    if number == 11:
        return SIGN | d.above(TOP_PART) if 12 in beside else d.negative(TOP_PART)
    return d.above(TOP_PART) | (d.sign() if field.endswith("im") else 0)


def pairs():
    """Each pair of rules that one request can break at once."""
    for one, other in itertools.combinations(RULES, 2):
        if one[1] != other[1]:
            yield one, other
        elif {one[0], other[0]} in ({2, 3}, {2, 11}, {2, 12}, {11, 12}):
            yield one, other


PAIRS = list(pairs())


def name(rule):
    return f"{rule[0]} {rule[1]}"


class Requests:
    """Requests one after another; `told` counts the kinds, `wanted` are those that must be drawn."""

    def __init__(self, seed):
        self.drawn = Drawn(seed)
        self.told = collections.Counter()
        self.turns = collections.Counter()
        self.lines = 0
        refusals = [f"alone: {name(rule)}" for rule in RULES] + [f"pair: {name(one)} with {name(other)}" for one, other in PAIRS]
        refusals += ["both ends: 11 with 12", "both ends: 11", "both ends: 12", "one, its first pair and its last refused", "many rules"]
        shapes = [f"{axis}: {shape.__name__}" for axis in ("re", "im") for shape in SHAPES[:-1]]
        seen = ["re: past its end", "im: past its end", "re: below 0", "re: above 32,768", "im: above 32,768"]
        seen += ["im: -0 kept", "im: -0 kept by a step of -0", "im: -0 lost"]
        seen += ["re: reversed", "im: reversed", "order: -0", "re: -0", "a step: subnormal"]
        steps = [f"steps: {steps}" for steps in (1, 2, 3, 4095, 4096)] + ["steps: others"]
        broken_off = [f"refused: {number}" for number in ORDER_FIRST]
        edges = ["n: 1", "n: 512", "order: 1,000", "kind: 1", "kind: 2", "scaling: 0", "scaling: 1"]
        self.wanted = ["accepted", "one, its last pair breaking everything"] + steps + edges + shapes + seen + broken_off + refusals

    def turn(self, of, things):
        """The things of a kind in turn, so that none is left out."""
        thing = things[self.turns[of] % len(things)]
        self.turns[of] += 1
        return thing

    def good(self, steps=None):
        d = self.drawn
        steps = steps or d.steps()
        shapes = self.turn("re", SHAPES), d.pick(SHAPES)
        if d.below(4) == 0:
            shapes = shapes[::-1]
        (first_re, last_re), (first_im, last_im) = (shape(d, real, steps) for shape, real in zip(shapes, (True, False)))
        made = dict(zip(FIELDS, (d.kind(), d.scaling(), d.count(), d.order(), first_re, first_im, last_re, last_im, steps)))
        return made, shapes

    def several(self):
        """A good request of a sweep that uses both ends."""
        made, _ = self.good()
        while made["steps"] == 1:
            made["steps"] = self.drawn.steps()
        return made

    def breaking(self, made, rules):
        """The rules broken in the request; two on one field are broken by one value."""
        for number, field in rules:
            beside = [other for other, there in rules if there == field and other > number]
            if not any(there == field and other < number for other, there in rules):
                made[field] = broken(self.drawn, number, field, beside)
        return made

    def accepted(self):
        d = self.drawn
        if d.below(20) == 0:
            made, _ = self.good(1)
            self.breaking(made, self.turn("last", LAST_PAIRS))
            self.told["one, its last pair breaking everything"] += 1
        else:
            made, shapes = self.good()
            for axis, shape in zip(("re", "im"), shapes):
                self.told[f"{axis}: {shape.__name__}"] += 1
            self.look(made)
        self.told["accepted"] += 1
        self.lines += made["steps"]
        steps = made["steps"]
        self.told[f"steps: {steps if steps in (1, 2, 3, 4095, 4096) else 'others'}"] += 1
        for field in ("kind", "scaling"):
            self.told[f"{field}: {made[field]}"] += 1
        self.told["n: 1"] += made["n"] == 1
        self.told["n: 512"] += made["n"] == 512
        self.told["order: 1,000"] += made["order"] == TOP_ORDER
        self.told["order: -0"] += made["order"] == SIGN
        return made

    def look(self, made):
        """Counts what the arithmetic makes of an accepted request, at its ends."""
        intervals = made["steps"] - 1
        if intervals == 0:
            return
        for axis in ("re", "im"):
            first, last = value_of(made[f"first {axis}"]), value_of(made[f"last {axis}"])
            step = (last - first) / intervals
            end = first + intervals * step
            self.told[f"{axis}: past its end"] += end > last >= first or end < last <= first
            self.told[f"{axis}: reversed"] += last < first
            self.told[f"{axis}: above 32,768"] += abs(end) > 32768
            self.told["a step: subnormal"] += 0 < abs(step) < 2.0 ** -1022
            if axis == "re":
                self.told["re: below 0"] += end < 0
                self.told["re: -0"] += SIGN in (made["first re"], made["last re"])
            elif made["first im"] == SIGN:
                kept = math.copysign(1, first + 0.0 * step) < 0
                self.told["im: -0 lost" if not kept else "im: -0 kept" if step else "im: -0 kept by a step of -0"] += 1

    def refused(self):
        d = self.drawn
        which = d.below(100)
        if which < 15:
            rules = (self.turn("alone", RULES),)
            what = f"alone: {name(rules[0])}"
        elif which < 75:
            rules = self.turn("pair", PAIRS)
            what = f"pair: {name(rules[0])} with {name(rules[1])}"
        elif which < 84:
            what, rules = self.turn("ends", (("both ends: 11 with 12", RULES[10:12] + [(12, "first re"), (12, "last re")]), ("both ends: 11", RULES[10:12]),
                                            ("both ends: 12", [(12, d.pick(("first re", "first im"))), (12, d.pick(("last re", "last im")))])))
        elif which < 92:
            what, rules = "one, its first pair and its last refused", [d.pick([rule for rule in RULES if rule[1].startswith("first") or rule[1] == "order"])]
            made, _ = self.good(1)
            self.breaking(made, rules + [(2, d.pick(("last re", "last im")))])
            return self.note(made, what, rules)
        else:
            what = "many rules"
            rules = [rule for rule in RULES if d.below(3) == 0] or [d.pick(RULES)]
        return self.note(self.breaking(self.several(), rules), what, rules)

    def note(self, made, what, rules):
        self.told[what] += 1
        self.told[f"refused: {min((number for number, _ in rules), key=ORDER_FIRST.index)}"] += 1
        return made

    def line(self):
        made = self.refused() if self.drawn.below(4) == 0 else self.accepted()
        return "".join("%0*X" % (width, made[field]) for field, width in zip(FIELDS, WIDTHS)) + "\n"


def told(requests, count, file):
    """The counts, a few to a line: those with the same word in front behind it."""
    rarest = min(requests.wanted, key=lambda kind: requests.told[kind])
    asked = f"{count} requests, {requests.told['accepted']} accepted, of {requests.lines} lines"
    print(f"draw.py: {asked}; {len(requests.wanted)} kinds, the rarest {requests.told[rarest]} times ({rarest})", file=file)
    groups = collections.defaultdict(list)
    for kind in requests.wanted[1:]:
        front, _, rest = kind.partition(" with " if kind.startswith("pair: ") else ": ")
        groups[front].append(f"{rest} {requests.told[kind]}".strip())
    for front, words in groups.items():
        print(textwrap.fill(f"{front}: {'; '.join(words)}", 150, initial_indent="  ", subsequent_indent="    "), file=file)


def main():
    if len(sys.argv) != 3:
        sys.exit(__doc__)
    count, requests = int(sys.argv[1]), Requests(int(sys.argv[2]))
    for _ in range(count):
        sys.stdout.write(requests.line())
    sys.stdout.flush()
    told(requests, count, sys.stderr)
    never = [kind for kind in requests.wanted if not requests.told[kind]]
    if never:
        sys.exit("draw.py: never drawn: " + "; ".join(never))


main()
