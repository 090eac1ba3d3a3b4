#!/usr/bin/env python3
"""broken.py [COUNT SEED]: breaks reference.c in small ways, one at a time, and sees each caught by the inputs that run.sh compares: COUNT requests of draw.py
(20,000 and seed 1 unless told) and the lines of malformed.py. What is not caught is named, and the status is 1."""
import os
import subprocess
import sys
import tempfile

HERE = os.path.dirname(os.path.abspath(__file__))
# what is broken, in which file, the text and what stands for it
EDITS = [
    ("4,097 steps are accepted", "expected.h", "r->steps > MOST_STEPS", "r->steps > MOST_STEPS + 1"),
    ("4,096 steps are refused", "expected.h", "r->steps > MOST_STEPS", "r->steps >= MOST_STEPS"),
    ("no steps are accepted", "expected.h", "r->steps == 0 || ", ""),
    ("kind 0 is accepted", "expected.h", "r->kind != 1 && r->kind != 2", "r->kind > 2"),
    ("kind 3 is accepted", "expected.h", "r->kind != 1 && r->kind != 2", "r->kind != 1 && r->kind != 2 && r->kind != 3"),
    ("scaling 2 is accepted", "expected.h", "r->scaling > 1", "r->scaling > 2"),
    ("n of 0 is accepted", "expected.h", "r->n == 0 || ", ""),
    ("n of 512 is refused", "expected.h", "r->n > MOST_PAIRS", "r->n >= MOST_PAIRS"),
    ("n of 513 is accepted", "expected.h", "r->n > MOST_PAIRS", "r->n > MOST_PAIRS + 1"),
    ("an order not a number is accepted", "expected.h", "not_finite(r->v) || ", "(r->v * 0 != 0 && r->v == r->v) || "),
    ("the first im need not be finite", "expected.h", " || not_finite(r->first_im)", ""),
    ("the last re need not be finite", "expected.h", "not_finite(r->last_re) || ", ""),
    ("the last im need not be finite", "expected.h", " || not_finite(r->last_im)", ""),
    ("a sweep of one looks at its last pair", "expected.h", "both = r->steps != 1", "both = 1"),
    ("a sweep of one looks at its last pair for 2", "expected.h", "if (both && (not_finite", "if ((not_finite"),
    ("a sweep of one looks at its last re for 11", "expected.h", "(both && r->last_re < 0.0)", "r->last_re < 0.0"),
    ("a sweep of two looks at its first pair alone", "expected.h", "both = r->steps != 1", "both = r->steps > 2"),
    ("an order of -0 is refused", "expected.h", "r->v < 0.0", "__builtin_signbit(r->v)"),
    ("an order of 1,000 is refused", "expected.h", "r->v > 1000.0", "r->v >= 1000.0"),
    ("an order little above 1,000 is accepted", "expected.h", "r->v > 1000.0", "r->v > 1000.0000000000001"),
    ("a first re of -0 is refused", "expected.h", "r->first_re < 0.0", "__builtin_signbit(r->first_re)"),
    ("a last re of -0 is refused", "expected.h", "r->last_re < 0.0", "__builtin_signbit(r->last_re)"),
    ("a first re below 0 by a subnormal is accepted", "expected.h", "r->first_re < 0.0", "r->first_re < -0x1p-1022"),
    ("a last re below 0 is accepted", "expected.h", " || (both && r->last_re < 0.0)", ""),
    ("32,768 is refused", "expected.h", "x > 32768.0", "x >= 32768.0"),
    ("-32,768 is refused", "expected.h", "x < -32768.0", "x <= -32768.0"),
    ("the float above 32,768 is accepted", "expected.h", "x > 32768.0", "x > 0x1.0000000000001p15"),
    ("a last im above 32,768 is accepted", "expected.h", " || too_large(r->last_im)", ""),
    ("a last re above 32,768 is accepted", "expected.h", "too_large(r->last_re) || ", ""),
    ("an order of -0 keeps its sign", "expected.h", "zero_without_sign(r->v)", "r->v"),
    ("a first re of -0 keeps its sign", "expected.h", "zero_without_sign(r->first_re)", "r->first_re"),
    ("a first im of -0 loses its sign", "expected.h", "first_re, r->first_im);", "first_re, zero_without_sign(r->first_im));"),
    ("point 0 is the first end itself", "expected.h", "r->first_im + (double)j", "j == 0 ? r->first_im : r->first_im + (double)j"),
    ("the last point is the last end itself", "expected.h", "first_re + (double)j", "j + 1 == r->steps ? last_re : first_re + (double)j"),
    ("a point is rounded once", "expected.h", "first_re + (double)j * step_re", "__builtin_fma((double)j, step_re, first_re)"),
    ("an im is rounded once", "expected.h", "r->first_im + (double)j * step_im", "__builtin_fma((double)j, step_im, r->first_im)"),
    ("the step is a product with an inverse", "expected.h", "(last_re - first_re) / intervals", "(last_re - first_re) * (1.0 / intervals)"),
    ("the step is over the number of steps", "expected.h", "(double)(r->steps - 1)", "(double)r->steps"),
    ("the product comes before the division", "expected.h", "first_re + (double)j * step_re", "first_re + (double)j * (last_re - first_re) / intervals"),
    ("points lie between the ends", "expected.h", "first_re + (double)j * step_re", "first_re * (1.0 - j / intervals) + last_re * (j / intervals)"),
    ("a re below 0 is made 0", "expected.h", "first_re + (double)j * step_re", "__builtin_fmax(0.0, first_re + (double)j * step_re)"),
    ("a re above 32,768 is made 32,768", "expected.h", "first_re + (double)j * step_re", "__builtin_fmin(32768.0, first_re + (double)j * step_re)"),
    ("subnormal steps are 0", "expected.h", "for (uint32_t j = 0", "const int lost = step_re > 0 && step_re < 0x1p-1022;\n    for (uint32_t j = lost ? 1 : 0"),
    ("a sweep of one is none of its own", "expected.h", "if (r->steps == 1) {", "if (0) {"),
    ("lower case is read", "expected.h", "byte - 'A' + 10 : 16", "byte - 'A' + 10 : byte >= 'a' && byte <= 'f' ? byte - 'a' + 10 : 16"),
    ("any byte is a digit", "expected.h", "if (value > 15) return 0;", "value &= 15;"),
    ("a colon is a digit", "expected.h", "byte <= '9'", "byte <= ':'"),
    ("a carriage return may follow", "expected.h", "length != REQUEST_DIGITS", "length != REQUEST_DIGITS && !(length == 93 && line[92] == '\\r')"),
    ("more digits may follow", "expected.h", "length != REQUEST_DIGITS", "length < REQUEST_DIGITS"),
    ("an empty line is no line", "reference.c", "    requests++;", "    if (length == 0) return;\n    requests++;"),
    ("an empty last line is a line", "reference.c", "if (kept) answer(held, kept);", "answer(held, kept);"),
    ("a last line needs its newline", "reference.c", "    if (kept) answer(held, kept);", ""),
    ("a refused request is not counted", "reference.c", "        refused = 1;", "        refused = 1;\n        requests--;"),
    ("a line ends at a NUL", "reference.c", "    requests++;", "    requests++;\n    for (size_t i = length; i-- > 0;) length = line[i] ? length : i;"),
    ("a read's last bytes are forgotten", "reference.c", "        kept += more;", "        kept = more;"),
]


def swapped(text, one, other):
    """The checks of two refusals the other way around."""
    lines = text.split("\n")
    at = [[i for i, line in enumerate(lines) if line.startswith("    if (") and line.endswith(f"return {number};")] for number in (one, other)]
    first, then = at
    return "\n".join(lines[:first[0]] + [lines[i] for i in then + first] + lines[then[-1] + 1:])


def texts(whole):
    """Each broken reference: what is broken, and the two files."""
    for what, name, old, new in EDITS:
        assert whole[name].count(old) == 1, (what, whole[name].count(old))
        yield what, {**whole, name: whole[name].replace(old, new)}
    order = (13, 9, 1, 2, 3, 11, 12)
    for one, other in zip(order, order[1:]):
        yield f"{other} comes before {one}", {**whole, "expected.h": swapped(whole["expected.h"], one, other)}


def built(folder, held):
    for name, text in held.items():
        with open(os.path.join(folder, name), "w", encoding="ascii") as file:
            file.write(text)
    program = os.path.join(folder, "program")
    subprocess.run(["cc", "-O2", "-ffp-contract=off", "-w", "-o", program, os.path.join(folder, "reference.c"), "-lm"], check=True)
    return program


def outcome(program, data):
    done = subprocess.run([program], input=data, stdout=subprocess.PIPE, stderr=subprocess.PIPE)
    return done.returncode, done.stdout, done.stderr


def main():
    count, seed = sys.argv[1:] if len(sys.argv) == 3 else ("20000", "1")
    missed = tried = 0
    with tempfile.TemporaryDirectory() as folder:
        os.mkdir(os.path.join(folder, "malformed"))
        subprocess.run([sys.executable, os.path.join(HERE, "malformed.py"), os.path.join(folder, "malformed")], stdout=subprocess.DEVNULL, check=True)
        draw = [sys.executable, os.path.join(HERE, "draw.py"), count, seed]
        inputs = [subprocess.run(draw, stdout=subprocess.PIPE, stderr=subprocess.DEVNULL, check=True).stdout]
        for name in sorted(os.listdir(os.path.join(folder, "malformed"))):
            with open(os.path.join(folder, "malformed", name), "rb") as file:
                inputs.append(file.read())
        whole = {name: open(os.path.join(HERE, name), encoding="ascii").read() for name in ("expected.h", "reference.c")}
        program = built(folder, whole)
        wanted = [outcome(program, data) for data in inputs]
        for what, held in texts(whole):
            program = built(folder, held)
            tried += 1
            if not any(outcome(program, data) != one for data, one in zip(inputs, wanted)):
                print(f"broken.py: not caught: {what}")
                missed += 1
    print(f"broken.py: {tried} broken references, {tried - missed} caught by {count} drawn requests, seed {seed}, and the malformed lines")
    return 1 if missed else 0


sys.exit(main())
