#!/usr/bin/env python3
"""shifts.py LISTING..     fails where the code of the square root has a product, a quotient, a root, a call, or anything else that its list does not allow
shifts.py --self-test   holds the judgement to listings made up here: some as they should be, others with a line that must fail, each for its own reason

The listings are assembly (tools/objects/listing.sh). lichenoar_sqrt is read with every function that it jumps to. What is allowed is a list, so that an
instruction nobody thought of fails too: sums, differences, shifts and comparisons of whole numbers, in registers or on the stack of x86-64. Of floating point
it has three things: the bits of a double moved from register to register, the constant not-a-number, and a register compared with itself, by which the
argument's bits are taken. A call fails, and what is called is read all the same, so that all it does is told."""
import re
import sys

FIRST, FEWEST, NOT_A_NUMBER = "lichenoar_sqrt", 30, 0x7FF8000000000000


def spelled(kinds, endings=("",)):
    return {kind + ending: kind for kind in kinds.split() for ending in endings}


# instructions on whole numbers, each spelling with the kind that it is counted as; what aarch64 shifts or x86-64 scales on the way into a sum is a shift
SIZES = ("", "b", "w", "l", "q")
WHEN = "a ae b be c e g ge l le na nae nb nbe nc ne ng nge nl nle no np ns nz o p pe po s z".split()
CONDITION = "eq ne cs hs cc lo mi pl vs vc hi ls ge lt gt le".split()
WHOLE = {
    "aarch64": {
        **spelled("mov movk movn movz add adds adc adcs sub subs sbc sbcs neg negs cmp cmn ccmp ccmn tst and ands bic orr orn eor eon mvn lsl lsr asr extr"),
        **spelled("ubfx ubfiz bfi bfxil clz csel csinc csinv csneg cset csetm cinc cinv cneg b cbz cbnz tbz tbnz ret nop"),
        **spelled("b.", CONDITION),
    },
    "x86-64": {
        **spelled("mov lea add adc sub sbb and or xor not neg cmp test shl shr sar bsr lzcnt inc dec push pop nop", SIZES),
        **spelled("movabs jmp ret", ("", "q")),
        **spelled("movz movs", ("bw", "bl", "bq", "wl", "wq")),
        **spelled("movs", ("lq",)),
        **spelled("set j", WHEN),
        **spelled("cmov", [when + size for when in WHEN for size in ("", "w", "l", "q")]),
    },
}
JUMP, ENDS = {"aarch64": r"b$|b\.|cbn?z$|tbn?z$", "x86-64": r"j[a-z]+$"}, ("b", "jmp", "ret")
# one operand of such an instruction; lea has an address too, of registers and numbers
GENERAL = r"%(?:[re]?(?:[abcd]x|[sd]i|[sb]p)|[abcd][hl]|(?:[sd]i|[sb]p)l|r(?:[89]|1[0-5])[bwd]?)"
ADDRESS = r"-?\d*\((?:%s)?(?:,%s(?:,[1248])?)?\)" % (GENERAL, GENERAL)
OPERAND = {
    "aarch64": r"[xw](?:\d|[12]\d|30|zr)|w?sp|#-?(?:0x)?[0-9a-f]+|(?:ls[lr]|asr|ror|[us]xt[bhwx])(?: #\d+)?|" + "|".join(CONDITION),
    "x86-64": GENERAL + r"|\$-?(?:0x)?[0-9a-f]+|-?\d*\(%r[sb]p\)",
}
# instructions on doubles, with all their operands; a constant is loaded, or the page is named that it is on
DOUBLES = {
    "aarch64": [
        ("fmov", r"d\d+, x\d+|d\d+, xzr|x\d+, d\d+|d\d+, d\d+"),
        ("fcmp", r"(d\d+), \1"),
        ("adrp", r"x\d+, (?P<constant>\S+)"),
        ("ldr", r"[dx]\d+, \[x\d+, :lo12:(?P<constant>\S+)\]"),
    ],
    "x86-64": [
        ("movq movd", r"%%xmm\d+, %s|%s, %%xmm\d+" % (GENERAL, GENERAL)),
        ("movq movsd movaps movapd movdqa", r"%xmm\d+, %xmm\d+"),
        ("ucomisd comisd", r"(%xmm\d+), \1"),
        ("movq movsd movaps movapd", r"(?P<constant>\S+)\(%rip\), %xmm\d+"),
    ],
}
# why something fails: by its name, where it has one
OTHER, OPERANDS, OUT = "not in the list of what is allowed", "not allowed with these operands", "a jump out of what is read"
CONSTANT, NOTHING, END = "a constant other than not-a-number", "a line that is no instruction", "an end with no return and no jump"
PRODUCT, QUOTIENT, ROOT, CALL = "a product", "a quotient", "a root", "a call"
NAMED = [(r"sqrt", ROOT), (r"mul|madd|msub|mneg|ml[as]", PRODUCT), (r"div|rcp|recp", QUOTIENT), (r"call|^blr?$", CALL), (r"^br$", OUT), (r"^$", NOTHING)]


def parse(lines):
    """Of each function its instructions (line, mnemonic, operands) and where its labels stand; of each label the number in the line below it."""
    functions, constants, kinds, name, label = {}, {}, set(), None, None
    for at, line in enumerate(lines, 1):
        # a fence is the compiler's remark that it moved no sum past here, and no instruction
        line = re.sub(r"\s*(#|//)( .*|ARITH_FENCE)$", "", line).rstrip()
        head = re.match(r'("[^"]+"|[^\s:]+):$', line)
        words = re.match(r"\t([a-z][\w.]*)(?:\s+(.*))?$", line)
        if not line:
            continue
        if head and head.group(1).startswith(".Lfunc_end"):
            name = None
        elif head and name is not None:
            functions[name][1][head.group(1)] = len(functions[name][0])
        elif head and head.group(1) in kinds:
            name = head.group(1)
            functions[name] = ([], {name: 0})
        elif head:
            label = head.group(1)
        elif name is None:
            kind = re.match(r"\t\.type\t(.+),[@%]function$", line)
            number = re.match(r"\t\.(?:quad|xword)\t(0x[0-9a-f]+|\d+)$", line)
            if kind:
                kinds.add(kind.group(1))
            if label and number:
                constants[label] = int(number.group(1), 0)
            label = None
        elif words:
            functions[name][0].append((at, words.group(1), words.group(2) or ""))
        elif not re.match(r"\t\.(p2align\t[\d, ]+|cfi_\w+.*)$", line):
            functions[name][0].append((at, "", line.strip().replace("\t", " ")))
    return functions, constants


def processor(functions):
    return "x86-64" if any("%" in operands for body, _ in functions.values() for _, _, operands in body) else "aarch64"


def split(operands):
    return [one.strip() for one in re.findall(r'(?:"[^"]*"|\([^)]*\)|\[[^]]*\]|[^,"(\[])+', operands)]


def kind_of(machine, word, operands, constants):
    """The kind of an instruction that is allowed, or None, and why it is not. Where a jump goes is not looked at."""
    forms = [re.fullmatch(form, operands) for words, form in DOUBLES[machine] if word in words.split()]
    kind = WHOLE[machine].get(word)
    for found in filter(None, forms):
        label = found.groupdict().get("constant")
        return (None, CONSTANT) if label and constants.get(label) != NOT_A_NUMBER else (word, None)
    if kind is None:
        return None, OPERANDS if forms else next((name for form, name in NAMED if re.search(form, word)), OTHER)
    whole = split(operands)[:-1] if re.match(JUMP[machine], word) else split(operands)
    form = OPERAND[machine] + ("|" + ADDRESS if kind == "lea" else "")
    return (kind, None) if all(re.fullmatch(form, one) for one in whole) else (None, OPERANDS)


def in_loops(follows):
    """How many instructions come round to themselves; follows has, for each, those that may come next."""
    several = 0
    for first in range(len(follows)):
        seen, left = set(), list(follows[first])
        while left:
            one = left.pop()
            if one not in seen:
                seen.add(one)
                left += follows[one]
        several += first in seen
    return several


def judged(lines):
    """A listing's processor, the words that say what was read of it, and what is not allowed: (line, function, instruction, why)."""
    functions, constants = parse(lines)
    machine = processor(functions)
    reached, kinds, several, looped, bad = [FIRST] if FIRST in functions else [], {}, 0, 0, []
    for name in reached:
        body, labels = functions[name]
        kind, follows = None, []
        for number, (at, word, operands) in enumerate(body):
            kind, why = kind_of(machine, word, operands, constants)
            to = re.sub(r"@PLT$", "", (split(operands) or [""])[-1])
            if to in functions and to not in reached:
                reached.append(to)
            jumps = kind and re.match(JUMP[machine], word)
            if jumps and to not in labels and to not in functions:
                why = OUT
            nexts = ([] if kind in ENDS else [number + 1]) + ([labels[to]] if jumps and to in labels else [])
            follows.append([one for one in nexts if one < len(body)])
            if why:
                bad.append((at, name, (word + " " + operands).strip(), why))
            else:
                kinds[kind] = kinds.get(kind, 0) + 1
        if kind not in ENDS:
            at, *last = body[-1] if body else (0, "")
            bad.append((at, name, " ".join(last).strip(), END))
        several += len(body)
        looped += in_loops(follows)
    if several < FEWEST:
        bad.append((0, FIRST, "", "%d instructions where %d are the least" % (several, FEWEST) if reached else "not found"))
    names = ", ".join(name.strip('"') for name in reached) or FIRST
    seen = ", ".join("%s %d" % one for one in sorted(kinds.items())) or "none"
    return machine, "%s: %d instructions, %d of them in loops; allowed: %s" % (names, several, looped, seen), bad


# made up: a root as it should be, with functions beside it that it does not use. HERE is the place of a line more, SUMS are those that make it long enough
MADE_UP = {
    "aarch64": {
        FIRST: 'b "made::up"',
        '"made::up"': "fcmp d0, d0; fmov x9, d0; mov x8, #9221120237041090560; csel x8, x8, x9, vs; cbz x8, .L1; clz x9, x8; "
                      ".L2:; lsl x8, x8, x10; SUMS; HERE; and x9, x8, #0x1fffffffffffff; ccmp x9, x10, #0, ne; cset w10, lo; tbnz w10, #0, .L2; b.hi .L2; "
                      ".L3:; fmov d0, x8; ret; .L1:; adrp x8, .LCPI0_0; ldr d0, [x8, :lo12:.LCPI0_0]; b .L3",
        "multiplies": "mul x0, x1, x2; ret",
        "moves": "mov x0, x1; ret",
        "falls": "mov x0, x1",
    },
    "x86-64": {
        FIRST: 'jmp "made::up"',
        '"made::up"': "pushq %rbx; movdqa %xmm0, %xmm1; #ARITH_FENCE; ucomisd %xmm1, %xmm1; movq %xmm0, %rax; movabsq $9221120237041090560, %rdx; cmovnpq %rax, %rdx; jo .L1; bsrq %rdx, %rsi; "
                      ".L2:; shrq %rax; leaq -11(%rdi,%r9,2), %rdi; shlq %cl, %rdx; SUMS; HERE; movq %rdx, 8(%rsp); cmpl $2046, %eax; setb %cl; ja .L2; "
                      ".L3:; movq %r8, %xmm0; popq %rbx; retq; .L1:; movsd .LCPI0_0(%rip), %xmm0; jmp .L3",
        "multiplies": "imulq %rax, %rcx; retq",
        "moves": "movq %rax, %rcx; retq",
        "falls": "movq %rax, %rcx",
    },
}
SUM = {"aarch64": "add x10, x10, x9, lsl #1", "x86-64": "addq %rdi, %rdi"}
# the sums with which it has the fewest instructions that are allowed, and what is counted then
LEAST = {"aarch64": 12, "x86-64": 9}
COUNTED = {"aarch64": ": 30 instructions, 18 of them in loops;", "x86-64": ": 30 instructions, 16 of them in loops;"}
# the lines that must fail, each for its one reason
FAILING = {
    "aarch64": {
        PRODUCT: ["madd x0, x1, x2, x3", "mul x0, x1, x2", "umulh x0, x1, x2", "fmul d0, d0, d0", "fmadd d0, d0, d0, d0", "fmla v0.2d, v1.2d, v2.2d"],
        QUOTIENT: ["udiv x0, x1, x2", "sdiv x0, x1, x2", "fdiv d0, d1, d2", "frecpe d0, d1"],
        ROOT: ["fsqrt d0, d0", "frsqrte d0, d0"],
        CALL: ["bl memcpy", "bl moves", "blr x8"],
        OUT: ["b memcpy", "cbz x8, .L9", "b.eq memcpy", "br x8"],
        OTHER: ["fadd d0, d0, d0", "fcvtzu x0, d0", "ucvtf d0, x0", "ldp x0, x1, [x2]", "svc #0", "brk #0x1"],
        OPERANDS: ["fcmp d0, d1", "fcmp d0, #0.0", "fmov d0, #1.0", "add d0, d1, d2", "and v0.16b, v1.16b, v2.16b", "ldr x0, [x1]", "add x0, x0, :lo12:table"],
        CONSTANT: ["ldr d0, [x8, :lo12:.LCPI0_1]", "ldr d0, [x8, :lo12:.LCPI0_2]", "adrp x8, table"],
        NOTHING: [".inst 0x9b027c20", "#APP", "ret; mul x0, x1, x2"],
    },
    "x86-64": {
        PRODUCT: ["imulq %rcx, %rdx", "mulq %rcx", "mulsd %xmm1, %xmm0", "pmuludq %xmm1, %xmm0", "vfmadd213sd %xmm2, %xmm1, %xmm0", "pmaddwd %xmm1, %xmm0"],
        QUOTIENT: ["divq %rcx", "idivq %rcx", "divsd %xmm1, %xmm0", "rcpss %xmm1, %xmm0"],
        ROOT: ["sqrtsd %xmm0, %xmm0", "rsqrtss %xmm0, %xmm0", "fsqrt"],
        CALL: ["callq memcpy@PLT", "callq moves", "callq *%rax", "syscall"],
        OUT: ["jmp memcpy@PLT", "jmp memcpy", "je .L9", "jmpq *%rax"],
        OTHER: ["addsd %xmm0, %xmm0", "cvttsd2si %xmm0, %rax", "cvtsi2sd %rax, %xmm0", "rep movsq", "ud2"],
        OPERANDS: ["ucomisd %xmm1, %xmm0", "movsd (%rsp), %xmm0", "movdqa (%rsp), %xmm0", "movq %xmm0, 8(%rsp)", "movq (%rcx,%rax,8), %rdx", "leaq table(%rip), %rdx",
                   "movdqa %xmm0, (%rsp)", "movq %fs:0, %rax", "addq %rax, %rcx; imulq %rax, %rcx"],
        CONSTANT: ["movsd .LCPI0_1(%rip), %xmm0", "movsd .LCPI0_2(%rip), %xmm0", "movsd table(%rip), %xmm0", "movq .LCPI0_1(%rip), %xmm0", "movq table(%rip), %xmm0"],
        NOTHING: [".byte 0xf7", "#APP", "{vex} mulx"],
    },
}
# and those that bring other lines with them: what fails then, by instruction and reason
BRINGING = {
    "aarch64": [
        ("", []), ("b moves", []), ("b.eq moves", []), ("b falls", [("mov x0, x1", END)]), ("b multiplies", [("mul x0, x1, x2", PRODUCT)]),
        ("bl multiplies", [("bl multiplies", CALL), ("mul x0, x1, x2", PRODUCT)]),
    ],
    "x86-64": [
        ("", []), ("jmp moves", []), ("je moves@PLT", []), ("jmp falls", [("movq %rax, %rcx", END)]), ("jmp multiplies", [("imulq %rax, %rcx", PRODUCT)]),
        ("callq multiplies@PLT", [("callq multiplies@PLT", CALL), ("imulq %rax, %rcx", PRODUCT)]),
    ],
}


def made_up(machine, line, sums=20):
    """The listing made up for a processor, with a line more, and with so many sums."""
    text = [".LCPI0_0:", "\t.quad\t0x7ff8000000000000", ".LCPI0_1:", "\t.quad\t0x3ff0000000000000", ".LCPI0_2:", "\t.quad\t0x7fffffffffffffff"]
    for name, body in MADE_UP[machine].items():
        text += ["\t.type\t%s,@function" % name, name + ":"]
        for one in body.replace("SUMS", "; ".join([SUM[machine]] * sums)).split("; "):
            text += [one] if one.endswith(":") else ["\t" + (line if one == "HERE" else one).replace(" ", "\t", 1)]
        text += [".Lfunc_end0:"]
    return text


def self_test():
    cases = [(machine, line, [(line, why)]) for machine, reasons in FAILING.items() for why, lines in reasons.items() for line in lines]
    cases += [(machine, line, wanted) for machine, lines in BRINGING.items() for line, wanted in lines]
    wrong = []
    for machine, line, wanted in cases:
        text = made_up(machine, line)
        found, _, bad = judged(text)
        placed = all(text[at - 1].strip().replace("\t", " ", 1) == instruction for at, _, instruction, _ in bad)
        wrong += [] if found == machine and placed and [one[2:] for one in bad] == wanted else ["%s, %r: %s" % (machine, line, bad)]
    for machine, sums in LEAST.items():
        gone = [line.replace(FIRST, "another") for line in made_up(machine, "", sums)]
        short = "%d instructions where %d are the least" % (FEWEST - 1, FEWEST)
        for text, wanted in [(made_up(machine, "", sums), []), (made_up(machine, "", sums - 1), [short]), (gone, ["not found"])]:
            _, words, bad = judged(text)
            wrong += [] if [one[3] for one in bad] == wanted and (bad or COUNTED[machine] in words) else ["%s, %s: %s" % (machine, words, bad)]
    print("\n".join("shifts: wrong on " + what for what in wrong) or "shifts: %d made-up listings judged as they should be" % (len(cases) + 3 * len(LEAST)))
    return 1 if wrong else 0


def main(paths):
    failed = 0
    for path in paths:
        machine, words, bad = judged(open(path, encoding="utf-8").read().splitlines())
        print("%s, %s, %s%s" % (path, machine, words, "; NOT ALLOWED: %d" % len(bad) if bad else ""))
        for at, name, instruction, why in bad:
            print("  %s, %s, in %s: %s" % ("%s:%d" % (path, at) if at else path, machine, name.strip('"'), instruction + ": " * bool(instruction) + why))
        failed |= bool(bad)
    return int(failed)


if len(sys.argv) < 2:
    sys.exit(__doc__)
sys.exit(self_test() if sys.argv[1:] == ["--self-test"] else main(sys.argv[1:]))
