#!/usr/bin/env python3
"""broken.py [COUNT SEED]: breaks plain.c and expected.h in small ways, one at a time. Each broken program must be told by compare.py on what run.sh gives it,
COUNT lines of draw.py (8,000 and seed 1 unless told) and the inputs of malformed.py; each broken pair of C functions by capi.c. What is not told is named, and
the status is 1."""
import os
import subprocess
import sys
import tempfile

import compare
import count

HERE = os.path.dirname(os.path.abspath(__file__))
# what is broken, the text of plain.c and what stands for it
PROGRAMS = [
    ("unreadable lines are refused ones", "unreadable++", "numbers[9]++"),
    ("the zeros keep their sign", "0x10000 - head.zeros", "(uint64_t)head.zeros - 0x10000"),
    ("the zeros have no sign", "head.zeros > 0x8000 ? 0x10000 - head.zeros : ", ""),
    ("8000 zeros are none", "0x10000 - head.zeros : head.zeros", "0x10000 - head.zeros : head.zeros & 0x7FFF"),
    ("a longest sum of 20 is let in", "head->longest > MOST_TERMS", "head->longest > MOST_TERMS + 1"),
    ("a longest sum of 19 is kept out", "head->longest > MOST_TERMS", "head->longest >= MOST_TERMS"),
    ("a refused line may have any longest sum", "|| head->longest > MOST_TERMS", "|| (!head->number && head->longest > MOST_TERMS)"),
    ("a longest sum is one byte", "|| head->longest > MOST_TERMS", "|| (head->longest &= 0xFF00FF) > MOST_TERMS"),
    ("14 is let in", "1, 0, 1}", "1, 1, 1}"),
    ("14 is let in and counted with 13", "    if (head->number >= NUMBERS", "    head->number -= head->number == 14;\n    if (head->number >= NUMBERS"),
    ("16 is let in and counted with 15", "    if (head->number >= NUMBERS", "    head->number -= head->number == 16;\n    if (head->number >= NUMBERS"),
    ("15 is kept out", "head->number >= NUMBERS", "head->number >= NUMBERS - 1"),
    ("a number is one digit", "digit[line[0]] << 4 | ", ""),
    ("a refused line's counts are summed", "    if (head.number) return;\n", ""),
    ("a refused line's zeros are summed", "if (head.number) return;", "if (head.number) zeros += head.zeros;\n    if (head.number) return;"),
    ("a refused line's longest sum is counted", "if (head.number) return;", "longest[head.longest] += head.number != 0;\n    if (head.number) return;"),
    ("backward steps are rungs", "backward += head.backward", "rungs += head.backward"),
    ("rungs are read where backward steps stand", "field(line + 10)", "field(line + 14)"),
    ("rungs are summed in 32 bits", "rungs += head.rungs", "rungs = (uint32_t)(rungs + head.rungs)"),
    ("backward steps are summed in 32 bits", "backward += head.backward", "backward = (uint32_t)(backward + head.backward)"),
    ("zeros are summed in 32 bits", "    longest[head.longest]++;", "    zeros = (uint32_t)zeros;\n    longest[head.longest]++;"),
    ("lower case is let in in front", "9ABCDEF\"[i]] = i;", "9ABCDEF\"[i]] = digit[(uint8_t) \"0123456789abcdef\"[i]] = i;"),
    ("lower case is let in among the pairs", "(uint8_t)(at[i] - 'A') > 5", "(uint8_t)((at[i] & 0xDF) - 'A') > 5"),
    ("a colon is a digit", "- '0') > 9", "- '0') > 10"),
    ("a slash is a digit", "- '0') > 9", "- '/') > 10"),
    ("G is a digit", "- 'A') > 5", "- 'A') > 6"),
    ("@ is a digit", "- 'A') > 5", "- '@') > 6"),
    ("the eighth bit is dropped", "at[i] - '0'", "(at[i] & 127) - '0'"),
    ("any byte is a digit in front", "digit[i] = NONE", "digit[i] = i & 15"),
    ("a blank is a digit in front", "digit[i] = NONE", "digit[i] = i == ' ' ? 0 : NONE"),
    ("the digits of the pairs are not looked at", "if (!is_pair(line + at)) return 0;", ";"),
    ("the digits of the first pair alone are looked at", "at < length; at += PAIR", "at < length; at += length"),
    ("the last digit of a pair is not looked at", "i < PAIR; i++", "i < PAIR - 1; i++"),
    ("513 pairs are let in", "MOST_PAIRS = 512", "MOST_PAIRS = 513"),
    ("512 pairs are kept out", "MOST_PAIRS = 512", "MOST_PAIRS = 511"),
    ("any number of pairs is let in", "length < HEAD || length > MOST_DIGITS", "length < HEAD"),
    ("refused with pairs is let in", "head->number ? cells != 0", "head->number ? cells % PAIR != 0"),
    ("refused with digits behind is let in", "head->number ? cells != 0 : ", "head->number ? 0 : "),
    ("answered with no pair is let in", "cells == 0 || ", ""),
    ("half a pair is let in", "PAIR = 32, MOST_PAIRS = 512", "PAIR = 16, MOST_PAIRS = 1024"),
    ("digits behind the pairs are let in", "cells = length - HEAD;", "cells = (length - HEAD) / PAIR * PAIR;\n    length = HEAD + cells;"),
    ("a line ends at a NUL", "    lines++;\n", "    lines++;\n    length = strnlen((const char *)line, length);\n"),
    ("a carriage return is dropped", "    lines++;\n", "    lines++;\n    length -= length && line[length - 1] == '\\r';\n"),
    ("a blank behind is dropped", "    lines++;\n", "    lines++;\n    length -= length && line[length - 1] == ' ';\n"),
    ("the last line needs its newline", "    if (kept) count(held, kept);\n", ""),
    ("an empty last line is a line", "    if (kept) count(held, kept);\n", "    count(held, kept);\n"),
    ("an empty line is no line", "    lines++;\n", "    if (length == 0) return;\n    lines++;\n"),
    ("a block's end ends a line", "        memmove(held, at, kept);\n", "        if (kept) count(at, kept);\n        kept = 0;\n"),
    ("a block's last bytes are lost", "        memmove(held, at, kept);\n", "        kept = 0;\n"),
    ("of a very long line the front is lost", "MOST_DIGITS + 1 : (size_t)(end - at)", "0 : (size_t)(end - at)"),
    ("of a very long line as much as an answer has is read", "MOST_DIGITS + 1 : (size_t)(end - at)", "MOST_DIGITS : (size_t)(end - at)"),
    ("a part of 0 is left out", "if (listed[i]) printf", "if (listed[i] && numbers[i]) printf"),
    ("a line beyond the limit is counted", "        beyond = 1;\n        return;\n", "        beyond = 1;\n"),
    ("a line beyond the limit is not told", "if (beyond) fprintf", "if (0) fprintf"),
    ("a line beyond the limit leaves the status", "return beyond;", "return 0;"),
    ("the limit is one less", "lines == most_lines", "lines + 1 >= most_lines"),
    ("the limit is one more", "lines == most_lines", "lines > most_lines"),
]
# the limit of the last five, which no short input reaches
FEW = 1000
FUNCTIONS = [
    ("a sum goes around", "more < room ? more : room", "more"),
    ("a sum stops one early", "~*cell", "(~*cell ? ~*cell - 1 : 0)"),
    ("a full page takes a line", ">= EXPECTED_MOST_LINES) return 15", "> EXPECTED_MOST_LINES) return 15"),
    ("a page is full one early", "page->cell[LINES] >=", "page->cell[LINES] + 1 >="),
    ("a page of 2^32 lines is an empty one", "page->cell[LINES] >=", "(uint32_t)page->cell[LINES] >="),
    ("a line is counted and refused", "LINES] >= EXPECTED_MOST_LINES) return 15", "LINES] >= EXPECTED_MOST_LINES) return 15 + 0 * page->cell[LINES]++"),
    ("joining stops one early", "lines + more > EXPECTED_MOST_LINES", "lines + more >= EXPECTED_MOST_LINES"),
    ("joining goes one beyond", "lines + more > EXPECTED_MOST_LINES", "lines + more > EXPECTED_MOST_LINES + (uint64_t)1"),
    ("joined lines go around", "lines > EXPECTED_MOST_LINES || more > EXPECTED_MOST_LINES || lines + more", "lines + more"),
    ("a refused joining adds", "return 15;\n    for", "return 15 + 0 * into->cell[UNREADABLE]++;\n    for"),
    ("the cell in reserve is not joined", "i < CELLS; i++) expected", "i < CELLS; i += 1 + (i == RESERVED - 1)) expected"),
    ("numbers above 15 are not joined", "i < CELLS; i++) expected", "i < CELLS; i = i == 15 ? RESERVED : i + 1) expected"),
    ("the last cell is not joined", "i < CELLS; i++) expected", "i < CELLS - 1; i++) expected"),
    ("a cell behind the last is joined", "i < CELLS; i++) expected", "i <= CELLS; i++) expected"),
    ("14 is let in", "fields[0] == 14 || ", ""),
    ("the longest sum of 20 is let in", "fields[2] >= 20", "fields[2] > 20"),
    ("8000 zeros are none", "0x10000 - fields[1]", "0x10000 - fields[1] & 0x7FFF"),
    ("513 pairs are let in", "pairs <= 512", "pairs <= 513"),
    ("a byte behind the line is looked at", "length == 18 + 32 * pairs", "length == 18 + 32 * pairs - (digit_value(line[length]) < 16)"),
    ("an empty line is readable", "if (length < 18) return 0;", "if (length == 0) return *fields = 9;\n    if (length < 18) return 0;"),
]
CALLED = """#include "expected.h"
uint32_t lichenoar_page_line(expected_page *page, const uint8_t *line, size_t length) { return expected_line(page, line, length); }
uint32_t lichenoar_page_join(expected_page *into, const expected_page *from) { return expected_join(into, from); }
"""


def edited(text, what, old, new):
    assert text.count(old) == 1, (what, text.count(old))
    return text.replace(old, new)


def compiled(folder, name, text, *words):
    """A program or an object of a text of C, with no care for speed."""
    with open(os.path.join(folder, f"{name}.c"), "w", encoding="ascii") as file:
        file.write(text)
    made = os.path.join(folder, name)
    subprocess.run(["cc", "-O0", "-w", "-I", folder, "-o", made, f"{made}.c", *words], check=True)
    return made


def inputs(folder, words):
    """The data that run.sh gives the program, drawn and malformed."""
    os.mkdir(os.path.join(folder, "malformed"))
    subprocess.run([sys.executable, os.path.join(HERE, "malformed.py"), os.path.join(folder, "malformed")], stdout=subprocess.DEVNULL, check=True)
    with open(os.path.join(folder, "drawn"), "wb") as file:
        subprocess.run([sys.executable, os.path.join(HERE, "draw.py"), *words], stdout=file, stderr=subprocess.DEVNULL, check=True)
    paths = ["drawn"] + [os.path.join("malformed", name) for name in sorted(os.listdir(os.path.join(folder, "malformed")))]
    return [open(os.path.join(folder, path), "rb").read() for path in paths]


def programs_told(folder, held):
    """The broken programs that compare.py does not tell, after the one that is not broken, which must pass."""
    text = open(os.path.join(HERE, "plain.c"), encoding="ascii").read()
    few = edited(text, "the limit", "4294967295u", f"{FEW}u")
    wanted = [(data, count.outcome(data), count.outcome(data, FEW)) for data in held]
    for limited, base in enumerate((text, few)):
        program = [compiled(folder, "whole", base)]
        assert not any(compare.wrong(program, data, outcomes[limited], says=False) for data, *outcomes in wanted), "plain.c itself is not as count.py"
    for what, old, new in PROGRAMS:
        limited = "limit" in what
        program = [compiled(folder, "program", edited(few if limited else text, what, old, new))]
        if not any(compare.wrong(program, data, outcomes[limited], says=False) for data, *outcomes in wanted):
            yield what


def functions_told(folder, seed):
    """The broken functions that capi.c does not tell, after those that are not broken."""
    text = open(os.path.join(HERE, "expected.h"), encoding="ascii").read()
    whole = open(os.path.join(HERE, "capi.c"), encoding="ascii").read()
    # before the folder has an expected.h of its own
    test = compiled(folder, "capi.o", whole, "-c", "-I", HERE, "-I", os.path.join(HERE, "..", "host"))
    for what, old, new in [("nothing", "CELLS = 58", "CELLS = 58"), *FUNCTIONS]:
        with open(os.path.join(folder, "expected.h"), "w", encoding="ascii") as file:
            file.write(edited(text, what, old, new))
        words = [compiled(folder, "functions", CALLED, test), os.path.join(folder, "drawn"), "64", seed]
        status = subprocess.run(words, stdout=subprocess.DEVNULL).returncode
        assert what != "nothing" or status == 0, "expected.h itself is not as expected.h"
        if status == 0 and what != "nothing":
            yield what


def main():
    words = sys.argv[1:] if len(sys.argv) == 3 else ["8000", "1"]
    with tempfile.TemporaryDirectory() as folder:
        missed = [f"of the program: {what}" for what in programs_told(folder, inputs(folder, words))]
        missed += [f"of the functions: {what}" for what in functions_told(folder, words[1])]
    for what in missed:
        print(f"broken.py: not told: {what}")
    tried = len(PROGRAMS) + len(FUNCTIONS)
    told = f"{tried - len(missed)} told by {words[0]} drawn lines, seed {words[1]}, and the malformed ones"
    print(f"broken.py: {len(PROGRAMS)} broken programs and {len(FUNCTIONS)} broken pairs of C functions, {told}")
    return 1 if missed else 0


sys.exit(main())
