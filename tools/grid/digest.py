#!/usr/bin/env python3
"""digest.py all | ROUTINE..: the digest of what each routine's definition says, without comments, imports and layout: its own file of specs/ and every file of specs/
that it stands on."""
import hashlib
import os
import re
import sys

TOP = os.path.dirname(os.path.dirname(os.path.dirname(os.path.abspath(__file__))))

DEFINITIONS = {
    "sqrt": ("roots", "Sqrt"),
    "hypot": ("roots", "Hypot"),
    "exp": ("exponential", "Exp"),
    "ln": ("logarithm", "Ln"),
    "sin": ("circular", "Sin"),
    "cos": ("circular", "Cos"),
    "angle": ("angle", "Angle"),
    "sinh": ("exponential", "Sinh"),
    "cosh": ("exponential", "Cosh"),
    "sin_pi": ("circular", "SinPi"),
    "cos_pi": ("circular", "CosPi"),
    "round": ("rounding", "Round"),
}


def says(crate, module, seen):
    """The text of the module and of those it uses, each once, the used ones first."""
    if (crate, module) in seen:
        return ""
    seen.add((crate, module))
    path = os.path.join(TOP, "crates", crate, "specs", module + ".antt")
    text = re.sub(r"--[^\n]*", "", open(path, encoding="utf-8").read())
    below = re.findall(r"^use Rattle\.(?!std\.)(\w+)\.specs\.([A-Z]\w*)", text, flags=re.M)
    text = re.sub(r"^use [^\n]*", "", text, flags=re.M)
    return "".join(says(c, m, seen) for c, m in below) + " ".join(text.split()) + "\n"


def digest(routine):
    return hashlib.sha256(says(*DEFINITIONS[routine], set()).encode("utf-8")).hexdigest()[:32]


if __name__ == "__main__":
    if len(sys.argv) < 2:
        sys.exit(__doc__)
    for name in list(DEFINITIONS) if sys.argv[1:] == ["all"] else sys.argv[1:]:
        print(name, digest(name))
