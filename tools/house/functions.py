"""The functions of crates/*/src and the calls in their bodies, read from the text: free functions that a file has or brings in by `use`, paths
through a module or a crate, and methods, told by their name and the types at hand. The kit's own functions are not followed, and neither
are the operators and conversions of a type."""
import re
import sys
from functools import lru_cache

from sources import TOP, bare, code_of, crates, files

CONTRACT = re.compile(r"\b(requires|ensures|decreases|invariant)\b\*?(\s+\w+)?\s*$")
# an impl's head: of a type, or of a trait for one
OWNER = re.compile(r"\bimpl\b(?:\s*<[^{;]*?>)?\s+(?:(?P<trait>\w+)(?:<[^{;]*?>)?\s+for\s+)?(?P<type>\w+)(?:<[^{;]*?>)?\s*\{")
# what the language calls by a sign or a conversion: read as part of the body that has it, and no function of its own
SIGNS = {"Add", "Sub", "Mul", "Div", "Neg", "From", "TryFrom"}
# whose methods are meant where several types have one of that name and the file tells none of them: the way begins there
PROGRAM = "lichenoar"
WORDS = {"if", "while", "match", "return", "for", "loop", "in"}


def closing(text, at):
    """The place behind the bracket that closes the one at `at`."""
    opened, depth = text[at], 0
    closed = {"(": ")", "{": "}", "[": "]"}[opened]
    for i in range(at, len(text)):
        depth += (text[i] == opened) - (text[i] == closed)
        if depth == 0:
            return i + 1
    raise ValueError(f"nothing closes the {opened} at {at}")


def body_or_end(code, at):
    """Where, behind a function's head or a clause of its contract, the next clause or the body begins, or the semicolon of a function with no body stands."""
    while code[at] not in "{;":
        at = closing(code, at) if code[at] in "([" else at + 1
    return at


class Function:
    def __init__(self, module, owner, trait, name, line, start, body):
        self.module, self.owner, self.trait, self.name, self.line, self.start, self.body = module, owner, trait, name, line, start, body
        self.path = "::".join([*module.path, *([owner] if owner else []), name])
        self.shown = f"{owner}::{name}" if owner else name
        self.file = str(module.file.relative_to(TOP))
        self.place = f"{self.file}:{line}"


class Module:
    """One file: its code, what it brings in (name -> path), its functions, and where their contracts stand."""

    def __init__(self, crate, file):
        self.crate, self.file = crate, file
        self.inner = file.relative_to(TOP / "crates" / crate / "src")
        self.path = (crate, *(part for part in self.inner.with_suffix("").parts if part not in ("lib", "main", "mod")))
        self.code = code = code_of(bare(file))
        self.names = {m.group(1): (*self.path, m.group(1)) for m in re.finditer(r"(?m)^(?:pub )?mod (\w+);", code)}
        for m in re.finditer(r"(?m)^(?:pub )?use ([^;]+);", code):
            self.bring_in(m.group(1))
        owners = [(m.start(), closing(code, m.end() - 1), m["type"], m["trait"]) for m in OWNER.finditer(code)]
        self.traits = re.findall(r"\btrait (\w+)", code)
        self.functions, self.contracts = [], []
        for m in re.finditer(r"\bfn (\w+)", code):
            start = body_or_end(code, closing(code, code.index("(", m.end())))
            while code[start] == "{":
                end = closing(code, start)
                clause = CONTRACT.search(code, 0, start)
                if not clause:
                    break
                self.contracts.append((clause.start(), end))
                start = body_or_end(code, end)
            if code[start] == ";":
                continue
            owner, trait = next(((owner, trait) for a, b, owner, trait in owners if a < m.start() < b), (None, None))
            if trait in SIGNS:
                continue
            self.functions.append(Function(self, owner, trait, m.group(1), code.count("\n", 0, m.start()) + 1, start, code[start:end]))

    def bring_in(self, text):
        head, brace, group = text.partition("{")
        for part in group.rstrip("} \n").split(",") if brace else [""]:
            path, _, name = (head + part).partition(" as ")
            steps = "".join(path.split()).split("::")
            if steps[-1]:
                first = {"crate": (self.crate,)}.get(steps[0]) or self.names.get(steps[0], (steps[0],))
                self.names[name.strip() or steps[-1]] = (*first, *steps[1:])


class House:
    def __init__(self):
        self.crates = crates()
        self.modules = [Module(crate, file) for crate in self.crates for file in files(crate, "src")]
        self.functions = [f for m in self.modules for f in m.functions]
        self.at = {f.path: f for f in self.functions}
        self.methods = {}
        for f in self.functions:
            if f.owner:
                self.methods.setdefault(f.name, []).append(f)

    def named(self, caller, steps):
        """The function that a path means, or None for one of the kit's."""
        module = caller.module
        if steps[0] == "Self":
            path = [*module.path, caller.owner, *steps[1:]]
        elif steps[0] == "crate":
            path = [module.crate, *steps[1:]]
        elif len(steps) == 1 and "::".join([*module.path, *steps]) in self.at:
            path = [*module.path, *steps]
        else:
            path = [*module.names.get(steps[0], [steps[0]]), *steps[1:]]
        found = self.at.get("::".join(path)) or self.at.get("::".join([*module.path, *path]))
        if not found and len(path) > 1:
            # a method of a type, which may stand in another file of its crate
            of_type = [f for f in self.methods.get(path[-1], []) if f.owner == path[-2] and f.module.crate in path]
            found = next((f for f in of_type if not f.trait), next(iter(of_type), None))
        if not found and path[0] in self.crates and steps[-1] not in ("from", "try_from"):
            sys.exit(f"{caller.place}: no function {'::'.join(path)}")
        return found

    def method(self, caller, name):
        """The methods of that name that may be meant: where there are several, those of a type that the file has or brings in, its own before a trait's; or, of a
        trait that the file has or brings in, each type's, and of those that only programs have the program's."""
        found = self.methods.get(name, [])
        if len(found) < 2:
            return found
        known = [*caller.module.names, *caller.module.traits]
        by_trait = [f for f in found if f.trait in known]
        near = [f for f in found if f.module is caller.module or f.owner in known]
        own = [f for f in near if not f.trait]
        found = by_trait or own or near or [f for f in found if not f.trait] or found
        return [f for f in found if f.module.crate == PROGRAM] or found

    @lru_cache(None)
    def calls(self, caller, without=()):
        """The functions that a body calls, in the order of its text, each once; arms of a match on the cases `without` are left out."""
        found = []
        for m in re.finditer(r"(\.\s*)?\b((?:\w+::)*\w+)(?:::<[^<>()]*>)?\s*\(", without_arms(caller.body, without)):
            steps = m.group(2).split("::")
            if steps[-1] in WORDS or steps[-1][0].isupper():
                continue
            meant = self.method(caller, steps[0]) if m.group(1) else [self.named(caller, steps)]
            found += [f for f in meant if f and f not in found]
        return found


def without_arms(body, cases):
    """The body without the arms of the cases: from the pattern to the end of its block, or to the comma behind it."""
    for case in cases:
        while m := re.search(r"\b%s\s*=>\s*" % re.escape(case), body):
            end = m.end()
            if body[end] == "{":
                end = closing(body, end)
            else:
                while body[end] not in ",}":
                    end = closing(body, end) if body[end] in "([{" else end + 1
            body = body[:m.start()] + body[end:]
    return body
