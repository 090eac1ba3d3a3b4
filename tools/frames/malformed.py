#!/usr/bin/env python3
"""malformed.py PROGRAM WORD..: runs the frame program on lines of every malformed kind, on counts that no buffer has, and on inputs cut and ended in every
way, and holds each answer line to what docs/SCOPE.md says. Expected answers are written here, by another road than the program's. Prints the number of lines."""
import subprocess
import sys

PROGRAM = sys.argv[1:]
if not PROGRAM:
    sys.exit(__doc__)
DIGITS = b'0123456789ABCDEF'
ASKED = b'02000002' + b'0' * 48
ANSWERED = b'000000000000000000' + b'3FF0000000000000' + b'0' * 48
NOT_A_NUMBER = b'7FF8000000000000'
lines = 0


def run(data):
    done = subprocess.run(PROGRAM, input=data, stdout=subprocess.PIPE, check=True)
    return done.stdout


def refusal(number):
    return b'%02X' % number + b'0' * 16


def expect(pairs, what):
    """Each line and its answer line; the input ends with a newline."""
    global lines
    got = run(b''.join(line + b'\n' for line, _ in pairs))
    assert got.endswith(b'\n') or not pairs, what
    answers = got.split(b'\n')[:-1]
    assert len(answers) == len(pairs), (what, len(answers), len(pairs))
    for (line, wanted), answer in zip(pairs, answers):
        assert answer == wanted, (what, line[:80], answer[:80], wanted[:80])
    lines += len(pairs)


def frame(kind, scaling, count, v=0, re=0, im=0):
    return b'%02X%02X%04X%016X%016X%016X' % (kind, scaling, count, v, re, im)


# the example of docs/SCOPE.md
expect([(ASKED, ANSWERED), (b'01000001' + b'0' * 48, refusal(4)), (b'0200', refusal(9))], 'example')

# every length but 56, and every byte that is no digit at every place
expect([(b'0' * n, refusal(9)) for n in range(300) if n != 56], 'length')
bad = [c for c in range(256) if c not in DIGITS and c != 10]
expect([(ASKED[:i] + bytes([c]) + ASKED[i + 1:], refusal(9)) for i in range(56) for c in bad], 'digit')
expect([(ASKED[:i] + b'a' + ASKED[i + 1:], refusal(9)) for i in range(56)], 'lower case')
expect([(ASKED + b'\r', refusal(9)), (b' ' + ASKED, refusal(9)), (ASKED[1:], refusal(9)), (ASKED + b'0', refusal(9)), (ASKED + ASKED, refusal(9))], 'one byte more')

# every other kind and scaling, before refusals 1 and 2
nan = 0x7FF8000000000000
for count in (0, 1, 512, 513, 65535):
    expect([(frame(k, s, count, nan), refusal(9)) for k in range(256) for s in range(256) if not (k in (1, 2) and s in (0, 1))][:: 7], 'kind and scaling')

# counts of which no buffer is made, before refusal 2
expect([(frame(k, s, n, nan, nan, nan), refusal(1)) for n in [0] + list(range(513, 65536, 37)) + [65535] for k in (1, 2) for s in (0, 1)], 'count')
expect([(frame(k, s, n, nan), refusal(2)) for n in (1, 2, 16, 17, 511, 512) for k in (1, 2) for s in (0, 1)], 'not finite')

# every pattern of a not-a-number is refused alike
expect([(frame(1, 0, 1, 0x7FF0000000000001 + (j << 40)), refusal(2)) for j in range(0, 4096)], 'not-a-number')

# long lines, among others
longest = [(b'0' * n, refusal(9)) for n in (57, 4096, 65535, 65536, 65537, 200000, 1 << 20)]
mixed = [pair for wrong in longest for pair in (wrong, (ASKED, ANSWERED))]
expect(mixed, 'long lines')
expect([(ASKED, ANSWERED)] * 20000, 'many frames')
full = frame(2, 0, 512, 0x3FF0000000000000)
expect([(full, b'0' * 18 + b'0' * 16 * 1024)] * 100, 'the longest answers')

# the end of the input
for data, wanted in ((b'', b''), (b'\n', refusal(9) + b'\n'), (b'\n\n', (refusal(9) + b'\n') * 2), (ASKED, ANSWERED + b'\n'), (ASKED + b'\n', ANSWERED + b'\n'),
                     (ASKED + b'\n\n', ANSWERED + b'\n' + refusal(9) + b'\n'), (b'0', refusal(9) + b'\n'), (b'0' * 70000, refusal(9) + b'\n')):
    assert run(data) == wanted, ('end', data[:80])
    lines += wanted.count(b'\n')

# cut by reads at every place: lines of lengths that drift against the reads'
drift = [(b'0' * (1 + (i * 7919) % 131), refusal(9)) for i in range(20000)]
expect([(line, answer) if len(line) != 56 else (ASKED, ANSWERED) for line, answer in drift], 'cut anywhere')

# a visit that stopped, and zeros above and below kept entries
answer = run(b'0201003240729C5E15A01B31403E2A75B8812B83C035EF2D038D1EF8\n')[:-1]
assert len(answer) == 18 + 32 * 50 and answer[:6] == b'00FFFF', answer[:18]
cells = [answer[18 + 16 * i:34 + 16 * i] for i in range(100)]
assert cells[:96] == [NOT_A_NUMBER] * 96 and cells[96:98] == [b'0' * 16] * 2 and cells[98:] != [b'0' * 16] * 2, 'entries 0 to 49'
answer = run(b'0200000A4075100000000000403173BE00B3864E403CA6A163319358\n')[:-1]
assert len(answer) == 18 + 32 * 10 and answer[:6] == b'000003', answer[:18]
cells = [answer[18 + 16 * i:34 + 16 * i] for i in range(20)]
assert [i for i in range(10) if cells[2 * i:2 * i + 2] == [b'0' * 16] * 2] == [6, 8, 9], 'zeros at 6, 8 and 9'
lines += 2

print('malformed.py: %d lines answered as docs/SCOPE.md says' % lines)
