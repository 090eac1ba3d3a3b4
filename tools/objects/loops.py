#!/usr/bin/env python3
"""loops.py LISTING..           counts the instructions of the loops that matter, a rung, a step, a term or a cell, and fails above the limits recorded here
loops.py --tenth LISTING..   the other way round: fails unless each loop is above nine tenths of its limit, so that a limit is near what it limits
loops.py --self-test         holds the counting to listings made up here: one as it should be, one spoiled, one without its loop, and others

The listings are assembly (tools/objects/listing.sh). A loop is a stretch of a function from a label to a branch back to it, with no other loop in it; two
that cross are one. It is known by its arithmetic, wherever the compiler has put it: multiplications, additions and subtractions, divisions, whole numbers
made floats, and floats put into memory but not on the stack; a packed instruction counts as two. Where several loops are equally near, the one with the most instructions is judged. A loop that is not
found fails too: whoever changed what it computes reads the new one, and records it here."""
import re
import sys

# a turn of the loop: its name, its arithmetic (multiplications, additions and subtractions, divisions, conversions, floats put into memory), how many rungs,
# steps, terms or cells it has, the most instructions that one of them may take, and in how many places such a loop stands at least
TURNS = {
    "aarch64": [
        ("a rung of the climb", (24, 20, 0, 4, 0), 4, 20.5, 1),
        ("a rung of the fill", (24, 20, 0, 4, 8), 4, 22, 1),
        ("a backward step of Miller's", (22, 24, 2, 0, 0), 2, 28.5, 1),
        ("a term of Temme's, order whole", (26, 20, 2, 2, 0), 1, 50, 1),
        ("a term of Temme's", (26, 23, 4, 2, 0), 1, 54, 1),
        ("a term of I, one sum of two", (32, 24, 4, 0, 0), 2, 38, 1),
        ("a term of I, a sum alone", (16, 12, 2, 0, 0), 1, 39, 1),
        ("a step of I's recurrence", (12, 10, 0, 2, 4), 2, 17, 1),
        ("a cell judged, K and I", (8, 0, 0, 0, 0), 8, 1.1, 1),
    ],
    "x86-64": [
        ("a rung of the climb", (24, 20, 0, 4, 0), 4, 31, 1),
        ("a rung of the fill", (24, 20, 0, 4, 8), 4, 32, 1),
        ("a backward step of Miller's", (22, 24, 2, 0, 0), 2, 41, 1),
        ("a term of Temme's, order whole", (27, 16, 2, 1, 0), 1, 72, 1),
        ("a term of Temme's", (27, 19, 4, 1, 0), 1, 82, 1),
        ("a term of I, one sum of two", (32, 28, 4, 0, 0), 2, 50, 1),
        ("a term of I, a sum alone", (16, 12, 2, 0, 0), 1, 55, 1),
        ("a step of I's recurrence", (12, 10, 0, 2, 4), 2, 22, 1),
        ("a cell judged, K and I", (16, 0, 0, 0, 0), 16, 1.25, 1),
    ],
}
FAR = 2
ARITHMETIC = [("mul", 0), ("add", 1), ("sub", 1), ("div", 2)]


class Loop:
    def __init__(self, function, body):
        self.function, self.size, self.does = function, len(body), [0, 0, 0, 0, 0]
        for word, operands in body:
            kind, lanes = work(word, operands)
            if kind is not None:
                self.does[kind] += lanes

    def distance(self, wanted):
        return sum(abs(a - b) for a, b in zip(self.does, wanted))


def put(word, operands):
    """How many f64 an instruction puts into memory; what is put on the stack is the compiler's own affair."""
    if "[sp" in operands or "[x29" in operands or "(%rsp)" in operands or "(%rbp)" in operands:
        return 0
    if re.match(r"stu?r$|stp$", word) and operands[:1] in "dq":
        return (2 if word == "stp" else 1) * (2 if operands.startswith("q") else 1)
    if operands.startswith("%xmm") and operands.endswith(")"):
        return {"movsd": 1, "movlpd": 1, "movhpd": 1, "movlps": 1, "movhps": 1, "movupd": 2, "movapd": 2, "movups": 2, "movaps": 2}.get(word, 0)
    return 0


def work(word, operands):
    """Which arithmetic an instruction does on f64, and on how many at once; kind 4 is putting."""
    if re.match(r"[us]cvtf$|cvtsi2sd", word):
        return 3, 1
    lanes = put(word, operands)
    if lanes:
        return 4, lanes
    for name, kind in ARITHMETIC:
        if word == name + "sd" or word == "f" + name and operands.startswith("d") or name == "mul" and word == "fnmul":
            return kind, 1
        if word == name + "pd" or name == "add" and word in ("addsubpd", "haddpd", "hsubpd") or word == "f" + name and ".2d" in operands:
            return kind, 2
    return None, 0


def parse(lines):
    """Of each function its instructions (mnemonic, operands), and where its labels stand."""
    functions, kinds, name = {}, set(), None
    for line in lines:
        line = re.sub(r"\s*(#|//) .*$", "", line).rstrip()
        kind = re.match(r"\t\.type\t(.+),[@%]function$", line)
        head = re.match(r'("[^"]+"|[^\s:]+):$', line)
        words = re.match(r"\t([a-z][\w.]*)\s*(.*)$", line)
        if kind:
            kinds.add(kind.group(1))
        elif head and head.group(1) in kinds:
            name = head.group(1)
            functions[name] = ([], {})
        elif head and head.group(1).startswith(".Lfunc_end"):
            name = None
        elif head and name is not None:
            functions[name][1][head.group(1)] = len(functions[name][0])
        elif words and name is not None and not words.group(1).startswith("nop"):
            functions[name][0].append(words.groups())
    return functions


def loops_of(name, body, labels):
    """The innermost loops of a function."""
    ends = {}
    for at, (word, operands) in enumerate(body):
        target = labels.get(operands.split(",")[-1].strip())
        if target is not None and target <= at and re.match(r"b$|b\.|cbn?z$|tbn?z$|j[a-z]+$", word):
            ends.setdefault(target, []).append(at)
    spans = sorted((start, at) for start, several in ends.items() for at in several)
    inner = [s for s in spans if not any(t != s and s[0] <= t[0] and t[1] <= s[1] for t in spans)]
    merged = []
    for start, at in inner:
        if merged and start <= merged[-1][1]:
            merged[-1] = (merged[-1][0], max(at, merged[-1][1]))
        else:
            merged.append((start, at))
    return [Loop(name.strip('"'), body[start:at + 1]) for start, at in merged]


def judged(found, turns, share=1):
    """One line for each loop that matters: whether it is above its limit, or None where it was not found, and the words."""
    for name, wanted, several, most, places in turns:
        near = min((loop.distance(wanted) for loop in found), default=0)
        nearest = [loop for loop in found if loop.distance(wanted) == near]
        if near > FAR or len(nearest) < places:
            text = "%-31s NOT FOUND in %d places: about %d multiplications, %d additions, %d divisions, %d conversions, %d put"
            yield None, text % (name, places, *wanted)
            continue
        loop = max(nearest, key=lambda one: one.size)
        each, limit = loop.size / several, most * share
        words = "%-31s %3d instructions for %2d, %5.2f each, limit %5.2f, in %s" % (name, loop.size, several, each, limit, loop.function)
        yield each > limit, words + (": ABOVE" if each > limit else "")


def loops(lines):
    return [loop for name, (body, labels) in parse(lines).items() for loop in loops_of(name, body, labels)]


def processor(lines):
    return "x86-64" if any("%rsp" in line for line in lines) else "aarch64"


def made_up(*blocks):
    """A listing of one function, made up of blocks; a number is as many moves."""
    text = "\t.type\tmade_up,@function\nmade_up:\n"
    for block in blocks:
        text += "\tmov\tx1, x2\n" * block if isinstance(block, int) else block
    return text.splitlines() + [".Lfunc_end0:"]


def self_test():
    """The climb's turn, made up: 24 multiplications, 20 additions and subtractions, 4 conversions and moves, with a label before them and a branch behind."""
    rungs = "\tfmul\td0, d1, d2\n" * 24 + "\tfadd\td0, d1, d2\n" * 16 + "\tfsub\td0, d1, d2\n" * 4 + "\tucvtf\td0, w0\n" * 4
    packed = "\tfmul\tv0.2d, v1.2d, v2.2d\n" * 12 + "\tfadd\tv0.2d, v1.2d, v2.2d\n" * 9 + "\tfsub\td0, d1, d2\n" * 2 + "\tucvtf\td0, w0\n" * 4
    puts, spills = "\tstp\td0, d1, [x0]\n" * 4, "\tstp\td0, d1, [sp, #16]\n" * 4
    head, back, on, end = ".LBB0_1:\n", "\tb.lo\t.LBB0_1\n", "\tb.lo\t.LBB0_2\n", ".LBB0_2:\n"
    out, outer = ".LBB0_3:\n", "\tcbnz\tw0, .LBB0_3\n"
    turn = TURNS["aarch64"][:1]
    spare = int(turn[0][2] * turn[0][3]) - 49
    cases = [
        ("a turn as long as its limit", False, made_up(5, head, rungs, spare, back, 5)),
        ("one instruction more", True, made_up(5, head, rungs, spare + 1, back, 5)),
        ("the same arithmetic with no branch back", None, made_up(5, head, rungs, spare, on, 5, end)),
        ("a loop with less than the arithmetic", None, made_up(head, rungs[:-200], back)),
        ("a loop around the turn", False, made_up(out, 30, head, rungs, spare, back, 30, outer)),
        ("two loops that cross, which are one", True, made_up(out, 20, head, rungs, spare, outer, 20, back)),
        ("packed instructions", False, made_up(head, packed, back)),
        ("the same arithmetic with floats put into memory", None, made_up(head, rungs, puts, back)),
        ("and on the stack", False, made_up(head, rungs, spills, back)),
        ("the longer of two such turns", True, made_up(head, rungs, back, out, rungs, spare + 1, outer)),
    ]
    bad = [what for what, expected, lines in cases if [above for above, _ in judged(loops(lines), turn)] != [expected]]
    bad += ["one place for two"] if next(judged(loops(cases[0][2]), [turn[0][:4] + (2,)]))[0] is not None else []
    bad += ["two listings told apart"] if processor(["\tpushq\t%rbp", "\tsubq\t$8, %rsp"]) == processor(["\tsub\tsp, sp, #16"]) else []
    print("\n".join("loops: wrong on " + what for what in bad) or "loops: %d made-up listings judged as they should be" % (len(cases) + 1))
    return 1 if bad else 0


def main(words):
    tenth = words[:1] == ["--tenth"]
    bad = 0
    for path in words[tenth:]:
        lines = open(path, encoding="utf-8").read().splitlines()
        print("%s, %s" % (path, processor(lines)))
        for above, text in judged(loops(lines), TURNS[processor(lines)], 0.9 if tenth else 1):
            print("  " + text)
            bad |= above is not tenth
    return int(bad)


if len(sys.argv) < 2:
    sys.exit(__doc__)
sys.exit(self_test() if sys.argv[1:] == ["--self-test"] else main(sys.argv[1:]))
