#!/usr/bin/env python3
"""same.py            holds the refusals to one list, docs/refusals.txt: crate refusal (cases, their order, their numbers), the lists of numbers that the claims have
                   for K, I, log-gamma, frames and sweeps, the tables of README.md and docs/SCOPE.md, the C header, the Rust error, and what tools/frames
                   shows; and the order of the checks that pages tell to the one that the claims have, proved
same.py --broken   breaks each of these places in a copy, by number, by words, by remedy, by who gives it, and sees each caught

The form of each place. README.md: a row `| number | given by | words | remedy |`. docs/SCOPE.md: `| number | given by | words | .. |`. The header: in the
comment with the line `0  answered`, `number  words; remedy`, more lines of an entry indented deeper, a blank line or the comment's end behind the last. The Rust
error: `number`, `from_number`, `words` and `remedy`, each a match with a case an arm; Display says number and words. The order: `K: 1, 2, ..`, once a page,
and behind `Refused by` in the header."""
import os
import re
import subprocess
import sys

import listed

READ = (
    "README.md", "docs/SCOPE.md", "docs/refusals.txt", "bindings/c/lichenoar.h", "bindings/rust/src/refusal.rs", "crates/refusal/src/refusal.rt",
    "crates/refusal/specs/Number.antt", "crates/claims/proofs/Claims.antt", "tools/refusals/listed.py", "tools/frames/show.py", "tools/frames/frame.py",
    "crates/claims/proofs/Sweeps.antt", "crates/claims/proofs/Pages.antt", "bindings/rust/README.md", "docs/lichenoar.1",
)
# the pages that tell the order of the checks, and of whom
TOLD_BY = ("README.md", "docs/SCOPE.md", "bindings/c/lichenoar.h", "bindings/rust/src/refusal.rs", "bindings/rust/README.md")
ORDERED = {path: ("K", "I", "log-gamma", "sweep") for path in TOLD_BY}
ORDERED["docs/lichenoar.1"] = ("K", "I")
# how a page names whom, before the order
NAMED = {"K": "K", "I": "I", "log-gamma": "[Ll]og-gamma", "sweep": "[Ss]weep"}
# the record of the claims that has whose list; and where a field of it says that there is no number but these and 0
CLAIMS, SWEEPS, PAGES = "crates/claims/proofs/Claims.antt", "crates/claims/proofs/Sweeps.antt", "crates/claims/proofs/Pages.antt"
RECORDS = {"K": (CLAIMS, "OfK"), "I": (CLAIMS, "OfSeries"), "log-gamma": (CLAIMS, "OfLogGamma"), "sweep": (SWEEPS, "OfSweep")}
NO_OTHER = (("log-gamma", "no_other"), ("sweep", "no_other"), ("sweep", "line-no-other"))


def text_of(top, path):
    with open(os.path.join(top, path), encoding="utf-8") as file:
        return file.read()


def compared(got, wanted, what):
    """A line for each key that is missing, too many, or says something else."""
    wrong = [f"{what}: {key} is missing" for key in wanted if key not in got]
    wrong += [f"{what}: {key} is not in the list" for key in got if key not in wanted]
    return wrong + [f"{what}: {key} is {got[key]!r}, and {wanted[key]!r} in the list" for key in wanted if key in got and got[key] != wanted[key]]


def once(pairs, what):
    """The pairs as a dictionary, and a complaint for each key that stands twice."""
    keys = [key for key, _ in pairs]
    return dict(pairs), [f"{what}: {key} stands {keys.count(key)} times" for key in sorted(set(keys), key=str) if keys.count(key) > 1]


def part(text, begin, end, what):
    """From the first match of begin to the next of end."""
    found = re.search(f"{begin}.*?(?={end})", text, flags=re.S | re.M)
    if not found:
        raise ValueError(f"{what} is not found")
    return found.group()


# ---- the places
def crate(entries, top):
    source = text_of(top, "crates/refusal/src/refusal.rt")
    cases = re.findall(r"^    (\w+),$", part(source, r"^pub enum Refusal \{", r"^\}", "the enum"), flags=re.M)
    wrong = [] if cases == [one.case for one in entries] else [f"the cases are {' '.join(cases)}, and in the list {' '.join(one.case for one in entries)}"]
    numbers = {one.case: one.number for one in entries}
    for path, pattern in (("crates/refusal/src/refusal.rt", r"^\s*Refusal::(\w+) => (\d+),"), ("crates/refusal/specs/Number.antt", r"^number_of (\w+) = (\d+)$")):
        got, twice = once([(case, int(number)) for case, number in re.findall(pattern, text_of(top, path), flags=re.M)], path)
        wrong += twice + compared(got, numbers, path)
    return wrong


def record_of(top, path, name):
    return part(text_of(top, path), rf"^pub record {name}\b", r"^\S", f"the record {name}")


def proved_orders(top):
    """The numbers of each list of checks, in its order, as the claims have them."""
    got = {}
    for giver, (path, name) in RECORDS.items():
        lists = re.findall(r"^  pub listed\b[^≡]*≡((?:\s*\d+\s*∷)+\s*\[\])", record_of(top, path, name), flags=re.M)
        if len(lists) != 1:
            raise ValueError(f"{name} has {len(lists)} lists of numbers")
        got[giver] = list(map(int, re.findall(r"\d+", lists[0])))
    return got


def claims(entries, top):
    got = {giver: sorted(numbers) for giver, numbers in proved_orders(top).items()}
    wanted = {giver: [one.number for one in entries if giver in one.given_by] for giver in listed.GIVERS}
    # a page has no list of checks: one number, or none
    got["page"] = sorted(map(int, re.findall(r"[1-9]\d*", part(record_of(top, PAGES, "OfPage"), r"^  pub no_other :[^\n]*\(0(?= ∷)", r"\[\]", "the numbers of a page"))))
    for giver, field in NO_OTHER:
        others = part(record_of(top, *RECORDS[giver]), rf"^  pub {field} :(?:(?!^  pub ).)*?\(0(?= ∷)", r"\[\]", f"{field} of {RECORDS[giver][1]}")
        got[f"{giver}, {field}"] = sorted(map(int, re.findall(r"\d+", others[others.rindex("("):])))
        wanted[f"{giver}, {field}"] = [0] + wanted[giver]
    # a request line that is none
    none = re.findall(r"requested_of line ≡ None → \(\(line_swept line\)\.number ≡ (\d+)\)", record_of(top, *RECORDS["sweep"]))
    got["no request"] = list(map(int, none))
    wanted["no request"] = [one.number for one in entries if one.case == "Malformed"]
    body = record_of(top, CLAIMS, "OfLines")
    got["frame"] = sorted(set(map(int, re.findall(r"number ≡ (\d+) → parsed_of line ≡ None", body))))
    # an answer line has one of these: what K, I and the program give, and 0
    got["a line"] = sorted(map(int, re.findall(r"\d+", part(body, r"^  pub no_other : \(line\b[^\n]*\(0", r"\[\]", "the numbers of a line"))))
    wanted["a line"] = sorted({0}.union(*(wanted[giver] for giver in ("K", "I", "frame"))))
    return compared(got, wanted, "crates/claims/proofs")


def rows(text, head, what):
    """The rows of the table with this head line: lists of cells."""
    table = part(text, f"^{re.escape(head)}$", r"^(?!\|)", f"the table of {what}")
    return [[cell.strip().replace("\\|", "|") for cell in re.split(r"(?<!\\)\|", row)[1:-1]] for row in table.split("\n")[2:] if row]


def table(path, head, fields):
    def place(entries, top):
        found = rows(text_of(top, path) + "\n", head, path)
        wanted = {str(one.number): [", ".join(one.given_by), one.words, one.remedy][:fields] for one in entries}
        got, twice = once([(row[0], row[1:1 + fields]) for row in found], path)
        order = [] if list(got) == [key for key in wanted if key in got] else [f"{path}: the rows are not in the list's order"]
        return twice + order + compared(got, wanted, path)
    return place


def header_entries(text):
    comment = next((one for one in re.findall(r"/\*.*?\*/", text, flags=re.S) if re.search(r"^[ *]*0 +answered$", one, flags=re.M)), None)
    if comment is None:
        raise ValueError("no comment of bindings/c/lichenoar.h has the line '0  answered'")
    lines = comment[:-2].split("\n")
    first = next(at for at, line in enumerate(lines) if re.match(r"[ *]*0 +answered$", line))
    edge = re.match(r"[ *]*", lines[first]).end() + 1
    found = []
    for line in lines[first:]:
        begin = re.match(r"[ *]*", line).end()
        if not line.strip(" *"):
            break
        entry = re.fullmatch(r"(\d+) +(.*)", line[begin:].rstrip())
        if entry and begin <= edge:
            found.append([int(entry[1]), entry[2]])
        else:
            found[-1][1] += " " + line[begin:].strip()
    return found


def header(entries, top):
    got, twice = once([(number, " ".join(said.split())) for number, said in header_entries(text_of(top, "bindings/c/lichenoar.h"))], "bindings/c/lichenoar.h")
    return twice + compared(got, {0: "answered", **{one.number: one.said() for one in entries}}, "bindings/c/lichenoar.h")


def arms(text, name):
    body = part(text, rf"^    (?:pub )?(?:const )?fn {name}\(", r"^    \}", f"fn {name}")
    return re.sub(r"^\s*//.*$", "", body, flags=re.M)


def rust(entries, top):
    text, path = text_of(top, "bindings/rust/src/refusal.rs"), "bindings/rust/src/refusal.rs"
    strings = r'Refusal::(\w+)\s*=>\s*\{?\s*"((?:[^"\\]|\\.)*)"'
    wrong = []
    for name, pattern, wanted in (
        ("number", r"Refusal::(\w+)\s*=>\s*(\d+)", {one.case: str(one.number) for one in entries}),
        ("from_number", r"(\d+)\s*=>\s*Refusal::(\w+)", {str(one.number): one.case for one in entries}),
        ("words", strings, {one.case: one.words for one in entries}),
        ("remedy", strings, {one.case: one.remedy for one in entries}),
    ):
        found = [(key, re.sub(r"\\\n\s*", "", said)) for key, said in re.findall(pattern, arms(text, name), flags=re.S)]
        got, twice = once(found, f"{path}, {name}")
        wrong += twice + compared(got, wanted, f"{path}, {name}")
    display = part(text, r"^impl (?:\w+::)*Display for Refusal", r"^\}", "Display")
    if not re.search(r'write!\(\s*f,\s*"refusal \{\}: \{\}",\s*self\.number\(\),\s*self\.words\(\)', display):
        wrong.append(f"{path}: Display does not say 'refusal', the number and the words")
    return wrong


def order(_entries, top):
    proved = {giver: ", ".join(map(str, numbers)) for giver, numbers in proved_orders(top).items()}
    wrong = []
    for path, givers in ORDERED.items():
        flat = " ".join(re.sub(r"^\s*///?", "", text_of(top, path), flags=re.M).split())
        for giver in givers:
            got = re.findall(rf"(?<![\w-]){NAMED[giver]}: (\d+(?:, \d+)+)", flat)
            if got != [proved[giver]]:
                wrong.append(f"{path}: the order of {giver} is told as {got}, and the claims have {proved[giver]!r}")
    flat = " ".join(text_of(top, "bindings/c/lichenoar.h").split())
    got = [one.replace(" or", ",") for one in re.findall(r"Refused by (\d+(?:, \d+)+ or \d+)", flat)]
    if got != [proved["K"], proved["I"], proved["sweep"]]:
        wrong.append(f"bindings/c/lichenoar.h: K, I and a sweep are refused by {got}, and the claims have {[proved['K'], proved['I'], proved['sweep']]}")
    return wrong


def frames(entries, top):
    lines = "".join(f"{number:02X}{16 * '0'}\n" for number in range(1, 256))
    done = subprocess.run([os.path.join(top, "tools/frames/show.py")], input=lines, capture_output=True, text=True, check=False)
    if done.returncode or done.stderr:
        return [f"tools/frames/show.py ends with {done.returncode} and says {done.stderr.strip()!r}"]
    said = {one.number: f": {one.said()}" for one in entries}
    wanted = {number: f"frame {number}: refusal {number}{said.get(number, ', not known here')}" for number in range(1, 256)}
    return compared(dict(enumerate(done.stdout.split("\n")[:-1], 1)), wanted, "tools/frames/show.py")


PLACES = {
    "crate": crate,
    "claims": claims,
    "README": table("README.md", "| No. | Given by | What it says | What to do |", 3),
    "SCOPE": table("docs/SCOPE.md", "| No. | Given by | In words | Given exactly when |", 2),
    "header": header,
    "Rust": rust,
    "order": order,
    "frames": frames,
}


def held(top, names=tuple(PLACES)):
    """What is wrong, by place."""
    try:
        entries = listed.read(top)
    except (OSError, ValueError) as wrong:
        return {"list": [str(wrong)]}
    found = {}
    for name in names:
        try:
            found[name] = PLACES[name](entries, top)
        except (OSError, ValueError) as wrong:
            found[name] = [f"{name}: {wrong}"]
    return {name: wrong for name, wrong in found.items() if wrong}


def main(words):
    if words == ["--broken"]:
        import broken
        return broken.main()
    if words:
        print(__doc__, file=sys.stdout if words == ["--help"] else sys.stderr)
        return 0 if words == ["--help"] else 2
    wrong = [line for lines in held(listed.TOP).values() for line in lines]
    for line in wrong:
        print(line)
    print(f"same.py: {len(listed.read())} refusals in {len(PLACES)} places, {len(wrong)} differences" if not wrong else f"same.py: {len(wrong)} differences from docs/refusals.txt")
    return 1 if wrong else 0


if __name__ == "__main__":
    sys.exit(main(sys.argv[1:]))
