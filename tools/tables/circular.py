#!/usr/bin/env python3
"""The constants of the crate circular, and what they give.

    circular.py                 print the constants as src/ and specs/ write them
    circular.py --check         work each out again at 400 bits, and compare with src/ and specs/
    circular.py --measure N [S] error of the four routines, in units in the last place, on N arguments a range (seed S), against mpmath

2/pi, the parts of pi/2, 29 turns and the parts of pi are derived here. The coefficients of the two kernels are those of fdlibm's k_sin.c and
k_cos.c; the check is that they give the sine and the cosine on [0, pi/4] to 2^-57, in exact arithmetic."""
import math, os, random, re, sys
from mpmath import mp, mpf
import mpmath

from f64 import bits, of_bits

mp.prec = 400
CRATE = os.path.join(os.path.dirname(os.path.abspath(__file__)), '..', '..', 'crates', 'circular')


def nearest(x, digits=53):
    """x rounded to so many binary digits, as a float"""
    e = mpmath.frexp(x)[1] - digits
    return float(mpmath.ldexp(mpmath.nint(mpmath.ldexp(x, -e)), e))


def truncated(x, digits):
    e = mpmath.frexp(x)[1] - digits
    return float(mpmath.ldexp(mpmath.floor(mpmath.ldexp(x, -e)), e))


HALF_PI = mp.pi / 2
P1 = truncated(HALF_PI, 36)
P2 = truncated(HALF_PI - mpf(P1), 36)
P3 = nearest(HALF_PI - mpf(P1) - mpf(P2))
PI_HIGH = nearest(mp.pi, 26)

# file, name in src/, name in specs/, value
REDUCE = [
    ('TWO_OVER_PI', 'two_over_pi', nearest(1 / HALF_PI)),
    ('HALF_PI_HIGH', 'p1', P1),
    ('HALF_PI_MIDDLE', 'p2', P2),
    ('HALF_PI_LOW', 'p3', P3),
    ('TURNS', None, nearest(58 * mp.pi)),
    ('PI_HIGH', 'pi_high', PI_HIGH),
    ('PI_LOW', 'pi_low', nearest(mp.pi - mpf(PI_HIGH))),
    ('PI', 'pi', nearest(mp.pi)),
    ('SHIFT', 'shift', 2.0 ** 52),
]
S = [of_bits(b) for b in (0xBFC5555555555549, 0x3F8111111110F8A6, 0xBF2A01A019C161D5, 0x3EC71DE357B1FE7D, 0xBE5AE5E68A2B9CEB, 0x3DE5D93A5ACFD57C)]
C = [of_bits(b) for b in (0x3FA555555555554C, 0xBF56C16C16C15177, 0x3EFA01A019CB1590, 0xBE927E4F809C52AD, 0x3E21EE9EBDB4B1C4, 0xBDA8FAE9BE8838D4)]
KERNEL = [(f'S{i + 1}', f's{i + 1}', v) for i, v in enumerate(S)] + [(f'C{i + 1}', f'c{i + 1}', v) for i, v in enumerate(C)]
VALUE = {name: value for name, _, value in REDUCE}


def polynomials():
    """the largest error of the exact polynomials on [0, pi/4]: relative for the sine, absolute for the cosine"""
    worst_s = worst_c = mpf(0)
    for i in range(1, 2001):
        x = mp.pi / 4 * i / 2000
        z = x * x
        s = x + x * z * sum(mpf(c) * z ** k for k, c in enumerate(S))
        c = 1 - z / 2 + z * z * sum(mpf(v) * z ** k for k, v in enumerate(C))
        worst_s = max(worst_s, abs(s / mpmath.sin(x) - 1))
        worst_c = max(worst_c, abs(c - mpmath.cos(x)))
    return worst_s, worst_c


def check():
    bad = []
    for folder, suffix in (('kernel', KERNEL), ('reduce', REDUCE)):
        source = open(os.path.join(CRATE, 'src', folder + '.rt')).read()
        spec = open(os.path.join(CRATE, 'specs', folder.capitalize() + '.antt')).read()
        for name, in_spec, value in suffix:
            found = re.search(rf'const {name}: f64 = (\S+);', source)
            if not found or bits(float(found.group(1))) != bits(value):
                bad.append(f'src {name}')
            wanted = f'0x{bits(value):X}'
            if in_spec and f'let {in_spec} = of_bits binary64 {wanted} in' not in spec or wanted not in spec:
                bad.append(f'specs {name}')
    # k p1 and k p2 are exact for k up to 2^17: 36 digits and 17
    for p in (P1, P2):
        if bits(p) % 2 ** 17:
            bad.append('a part of pi/2 has more than 36 digits')
    if bits(PI_HIGH) % 2 ** 27:
        bad.append('the leading part of pi has more than 26 digits')
    s, c = polynomials()
    print(f'polynomials: sine 2^{float(mpmath.log(s, 2)):.2f}, cosine 2^{float(mpmath.log(c, 2)):.2f}')
    if max(s, c) > mpf(2) ** -57:
        bad.append('a polynomial')
    print('the rest of pi/2 after its parts: 2^%.1f' % float(mpmath.log(abs(HALF_PI - mpf(P1) - mpf(P2) - mpf(P3)), 2)))
    for b in bad:
        print('DIFFERS:', b)
    print('checked', len(REDUCE) + len(KERNEL), 'constants')
    return not bad


# ---- the formulas of specs/, operation by operation
def sine(x, y):
    z = x * x
    v = z * x
    r = (S[1] + z * (S[2] + z * S[3])) + z * (z * z) * (S[4] + z * S[5])
    return x - (z * (0.5 * y - v * r) - y - v * S[0])


def cosine(x, y):
    z = x * x
    w = z * z
    r = z * (C[0] + z * (C[1] + z * C[2])) + w * w * (C[3] + z * (C[4] + z * C[5]))
    h = 0.5 * z
    t = 1.0 - h
    return t + ((1.0 - t - h) + (z * r - x * y))


def reduce(a):
    if a < 0.78125:
        return a, 0.0, 0
    if a > 65536.0:
        a = math.fmod(a, VALUE['TURNS'])
    t = a * VALUE['TWO_OVER_PI'] + VALUE['SHIFT']
    k = t - VALUE['SHIFT']
    high = a - k * P1
    w = k * P2
    r = high - w
    e = high - r - w - k * P3
    hi = r + e
    return hi, r - hi + e, bits(t) % 4


def reduce_pi(a):
    if a > 1048576.0:
        a = math.fmod(a, 2.0)
    t = 2.0 * a + VALUE['SHIFT']
    r = a - 0.5 * (t - VALUE['SHIFT'])
    h = of_bits(bits(r) - bits(r) % 2 ** 27)
    p = h * PI_HIGH
    q = h * VALUE['PI_LOW'] + (r - h) * VALUE['PI']
    hi = p + q
    return hi, p - hi + q, bits(t) % 4


def turned(reduced, more, minus):
    hi, lo, quarter = reduced
    quarter += more
    y = sine(hi, lo) if quarter % 2 == 0 else cosine(hi, lo)
    return y if quarter // 2 % 2 == 0 else minus(y)


def negative(x):
    return bits(x) >> 63


ROUTINES = {
    'sin': (lambda x: turned(reduce(abs(x)), 2 * negative(x), lambda y: -y), mpmath.sin),
    'cos': (lambda x: turned(reduce(abs(x)), 1, lambda y: -y), mpmath.cos),
    'sin_pi': (lambda x: turned(reduce_pi(abs(x)), 2 * negative(x), lambda y: 0.0 - y), mpmath.sinpi),
    'cos_pi': (lambda x: turned(reduce_pi(abs(x)), 1, lambda y: 0.0 - y), mpmath.cospi),
}


def error(got, true):
    if true == 0:
        return 0.0 if got == 0 else math.inf
    unit = mpmath.ldexp(mpf(1), max(mpmath.frexp(true)[1] - 53, -1074))
    return float(abs(mpf(got) - true) / unit)


def measure(count, seed):
    mp.prec = 200
    random.seed(seed)
    tiny = lambda: of_bits(random.randrange(0x3FF0000000000000))
    near_half_pi = lambda: of_bits(bits(float(random.randint(1, 20862) * HALF_PI)) + random.randint(-2, 2))
    ranges = {
        'sin cos': [('to pi/4', lambda: random.uniform(-0.79, 0.79)), ('to 10', lambda: random.uniform(-10, 10)), ('to 32769', lambda: random.uniform(-32769, 32769)),
                    ('multiples of pi/2', near_half_pi), ('any below 1', tiny)],
        'sin_pi cos_pi': [('to 1', lambda: random.uniform(-1, 1)), ('to 1100', lambda: random.uniform(-1100, 1100)), ('to 2^20', lambda: random.uniform(-2 ** 20, 2 ** 20)),
                          ('to 2^25', lambda: random.uniform(-2 ** 25, 2 ** 25)), ('normal below 1', lambda: of_bits(random.randrange(0x0010000000000000, 0x3FF0000000000000))),
                          ('subnormal', lambda: of_bits(random.randrange(0x0010000000000000)))],
    }
    for names, rows in ranges.items():
        for name in names.split():
            mine, true = ROUTINES[name]
            for label, draw in rows:
                mp.prec = 1300 if label in ('any below 1', 'normal below 1', 'subnormal') else 200
                worst, at = 0.0, 0.0
                for _ in range(count if mp.prec == 200 else count // 10):
                    x = draw()
                    e = error(mine(x), true(mpf(x)))
                    if e > worst:
                        worst, at = e, x
                print(f'{name:7} {label:18} {worst:.4f} at {at.hex()}')


def main():
    if sys.argv[1:] == []:
        for name, in_spec, value in KERNEL + REDUCE:
            print(f'const {name}: f64 = {value!r};'.ljust(52), f'{in_spec} = of_bits binary64 0x{bits(value):016X}' if in_spec else f'of_bits binary64 0x{bits(value):016X}')
    elif sys.argv[1] == '--check':
        sys.exit(0 if check() else 1)
    elif sys.argv[1] == '--measure':
        measure(int(sys.argv[2]), int(sys.argv[3]) if len(sys.argv) > 3 else 1)
    else:
        sys.exit(__doc__)


main()
