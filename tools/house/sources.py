"""What the scripts beside this one read: crates.txt, the files of each crate without their comments, and which crate uses which."""
import re
from pathlib import Path

TOP = Path(__file__).resolve().parents[2]
PARTS = {"src": "*.rt", "specs": "*.antt", "proofs": "*.antt"}
KINDS = ["code", "definition", "proof"]


def listed():
    """crates.txt: each crate and the crates that its line lists. Behind a name may stand what kind of crate it is."""
    lines = (line.split("#")[0] for line in (TOP / "crates.txt").read_text(encoding="utf-8").splitlines())
    return {name.split()[0]: others.split() for name, _, others in (line.partition(":") for line in lines if ":" in line)}


def crates():
    return list(listed())


def files(crate, part):
    return sorted((TOP / "crates" / crate / part).rglob(PARTS[part]))


def bare(path):
    """A file's text with blanks for its comments, so that every line keeps its number."""
    mark = r"//[^\n]*" if path.suffix == ".rt" else r"(?m)(?<!\S)--(?!\S)[^\n]*"
    return re.sub(mark, "", path.read_text(encoding="utf-8"))


def code_of(text):
    """A source's text without what is for proofs alone, `ghost use ..;`, ghost members and fields, and what a type is seen as (`impl Model`), each line at its number."""
    blank = lambda m: "\n" * m.group().count("\n")
    text = re.sub(r"(?m)^[ \t]*ghost use[^;]*;", blank, text)
    text = re.sub(r"(?m)^impl\b[^{;\n]* Model for [^{]*\{(?:[^{}]|\{[^{}]*\})*\}$", blank, text)
    return re.sub(r"(?m)^[ \t]*(?:pub(?:\(crate\))? )?ghost \w+\s*[:=]\s*\{(?:[^{}]|\{[^{}]*\})*\}\s*[;,]", blank, text)


def uses():
    """crate -> {crate that it uses: how}. By code, where a source names it; by definition, where a contract or a definition does; by proof alone."""
    names = crates()
    found = {crate: {} for crate in names}

    def note(crate, other, kind):
        if other in names and other != crate:
            found[crate][other] = min(found[crate].get(other, kind), kind, key=KINDS.index)

    for crate in names:
        for part in PARTS:
            for path in files(crate, part):
                text = bare(path)
                code = code_of(text) if part == "src" else ""
                own = set(re.findall(r"\bmod (\w+);", code))
                for other in sorted(set(re.findall(r"(?<![\w:])(\w+)::", code)) - own):
                    note(crate, other, "code")
                for other in sorted(set(re.findall(r"\bRattle\.(\w+)", text))):
                    note(crate, other, "proof" if part == "proofs" else "definition")
    return found
