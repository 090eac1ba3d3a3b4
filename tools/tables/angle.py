#!/usr/bin/env python3
"""angle.py: write the tables of crate angle_tables, src/tables.rt and specs/Tables.antt, from one computation at 300 bits, and the proof that
they agree. `rt fmt` lays the files out.

angle.py          write the files
angle.py --check  compare the files with what would be written, confirm the constants that the sources cite, and bound the
                  polynomial's error; status 1 where something differs
"""
import re
import sys
from pathlib import Path

from mpmath import mp, mpf

from arms import answers
from f64 import bits, nearest, of_bits

mp.prec = 300
STEPS = 64
CRATES = Path(__file__).resolve().parents[2] / "crates"
TABLES = CRATES / "angle_tables"
# A3, A5, A7 of atan(v) = v + v^3 (A3 + z (A5 + z A7)), z = v^2, fitted for |v| <= 1/128
COEFFICIENTS = (0xBFD5555555555547, 0x3FC999999918148B, 0xBFC248CEAD963C68)


def split(value):
    """The nearest f64, and the f64 nearest to what is left."""
    high = nearest(value)
    return high, nearest(value - mpf(high))


PAIRS = [split(mp.atan(mpf(j) / STEPS)) for j in range(STEPS + 1)]
HIGH = [pair[0] for pair in PAIRS]
LOW = [pair[1] for pair in PAIRS]


def arm(key, j):
    return f"        {key} => Pair {{\n            hi: {HIGH[j]!r},\n            lo: {LOW[j]!r},\n        }},\n"


def antt_float(x):
    """A negative literal of the source is the negation of a literal."""
    text = f"of_bits binary64 0x{bits(abs(x)):016X}"
    return f"neg ({text})" if bits(x) >> 63 else text


def antt(name, comment, values):
    body = "".join(f"    {antt_float(x)} ∷\n" for x in values)
    return f"-- {comment}\nunfoldable pub {name} : List Float\n{name} =\n{body}    []\n"


ABOUT = f"atan(j / {STEPS}) for j = 0 .. {STEPS}: the nearest f64, and the f64 nearest to what that leaves. Written by tools/tables/angle.py."

SOURCE = f"""// {ABOUT}
// A match and not an array: the compiler makes one load of it, where an indexed constant is copied to the stack at each call.
ghost use Rattle.std.specs.Prelude.{{◌≡◌, ◌<◌}};
ghost use Rattle.angle_tables.specs.Tables.{{tabled_of}};

use machine::pair::Pair;

pub fn tabled(j: usize) -> Pair
    requires {{ j < {STEPS + 1} }}
    ensures {{ result ≡ tabled_of j }}
{{
    match j {{
{"".join(arm(j, j) for j in range(STEPS))}{arm("_", STEPS)}    }}
}}
"""

SPEC = f"""-- {ABOUT}
use Rattle.std.specs.Prelude.{{List, [], ◌∷◌, ℕ, get_or, Float}}
use Rattle.std.specs.Float.{{nan, binary64}}
use Rattle.std.specs.Float.Ieee.{{of_bits, neg}}
use Rattle.machine.specs.declared.pair.Pair.{{Pair}}

{antt("atan_high", "the nearest f64", HIGH)}
{antt("atan_low", "what is left", LOW)}
unfoldable pub tabled_of : ℕ → Pair
tabled_of j = record {{
  hi = get_or atan_high j nan;
  lo = get_or atan_low j nan;
}}
"""

PROOF = f"""-- `angle_tables::tables::tabled` meets its contract: an arm for each entry. Written by tools/tables/angle.py. Assumes nothing.
use Rattle.laws.proofs.Arms.{{last}}
use Rattle.angle_tables.specs.Tables.{{tabled_of, atan_high, atan_low}}
use Rattle.angle_tables.proofs.tables.tabled.Goals as goal
{chr(10).join(answers("j", STEPS + 1, "tabled_of atan_high atan_low"))}
"""

FILES = {
    TABLES / "src" / "tables.rt": SOURCE,
    TABLES / "specs" / "Tables.antt": SPEC,
    TABLES / "proofs" / "tables" / "tabled" / "Answers.antt": PROOF,
}


def polynomial_error():
    """The largest |atan(v) - (v + v^3 (..))| over a grid of |v| <= 1/128, with exact arithmetic on the f64 coefficients."""
    a3, a5, a7 = (mpf(of_bits(b)) for b in COEFFICIENTS)
    worst = mpf(0)
    for i in range(1, 4001):
        v = mpf(i) / 4000 / 128
        z = v * v
        worst = max(worst, abs(mp.atan(v) - (v + v * z * (a3 + z * (a5 + z * a7)))))
    return worst


def bare(text):
    """A text without what the formatter may change."""
    return re.sub(r"\s+", "", text).replace(",}", "}")


def check():
    wrong = 0
    for path, text in FILES.items():
        if bare(path.read_text()) != bare(text):
            print("differs:", path)
            wrong = 1
    spec = (CRATES / "angle" / "specs" / "Angle.antt").read_text()
    code = (CRATES / "angle" / "src" / "angle.rt").read_text()
    for name, value in (("pi", mp.pi), ("half pi", mp.pi / 2)):
        for x in split(value):
            if f"0x{bits(x):016X}" not in spec or repr(x) not in code:
                print("not cited:", name, f"0x{bits(x):016X}", repr(x))
                wrong = 1
    for b in COEFFICIENTS:
        x = of_bits(b)
        if f"0x{bits(x):016X}" not in spec or repr(x) not in code:
            print("not cited:", f"0x{bits(x):016X}", repr(x))
            wrong = 1
    worst = polynomial_error()
    print("largest error of the polynomial: 2 ^", mp.nstr(mp.log(worst, 2), 6))
    return wrong or worst > mpf(2) ** -70


if __name__ == "__main__":
    if sys.argv[1:] == ["--check"]:
        sys.exit(check())
    for path, text in FILES.items():
        path.parent.mkdir(parents=True, exist_ok=True)
        path.write_text(text)
