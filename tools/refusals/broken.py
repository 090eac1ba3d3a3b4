"""same.py --broken: each place of the list broken on purpose in a copy, one edit at a time, and same.py has to name it. The copy as it is must be whole first."""
import os
import re
import shutil
import tempfile
import textwrap

import listed
import same


def loose(words):
    """The words with whatever line ends, stars and blanks are between them."""
    return r"[\s*]+".join(map(re.escape, words.split()))


def spoiled(words):
    """Other words of the same length: the first letter of the last word turned into another."""
    at = words.rindex(" ") + 1 if " " in words else 0
    return words[:at] + ("q" if words[at] != "q" else "p") + words[at + 1:]


class Edit:
    """One text of one file into another; it has to stand there exactly once."""

    def __init__(self, place, what, path, old, new):
        self.place, self.what, self.path, self.old, self.new = place, what, path, old, new

    def __str__(self):
        return f"{self.place}, {self.what} ({self.path})"

    def apply(self, text):
        found = list(re.finditer(self.old, text, flags=re.M | re.S))
        if len(found) != 1:
            raise SystemExit(f"same.py --broken: {self}: its text stands {len(found)} times")
        new = self.new(found[0]) if callable(self.new) else found[0].expand(self.new) if "\\g" in self.new else self.new
        return text[:found[0].start()] + new + text[found[0].end():]


def other(match):
    """The match with its group named it spoiled."""
    a, b = match.start("it") - match.start(), match.end("it") - match.start()
    return match.group()[:a] + spoiled(match.group("it")) + match.group()[b:]


def of_tables(one):
    for place, path, fields in (("README", "README.md", 3), ("SCOPE", "docs/SCOPE.md", 2)):
        row = rf"^\| {one.number} \| {re.escape(', '.join(one.given_by))} \|"
        yield Edit(place, f"{one.number} under another number", path, rf"{row}", lambda m: m.group().replace("| ", "| 1", 1))
        yield Edit(place, f"who gives {one.number}", path, rf"^(?P<a>\| {one.number} \|) {re.escape(', '.join(one.given_by))} \|", r"\g<a> nobody |")
        yield Edit(place, f"the words of {one.number}", path, rf"{row} (?P<it>{loose(one.words)}) \|", other)
        yield Edit(place, f"no row for {one.number}", path, rf"{row}[^\n]*\n", "")
        yield Edit(place, f"{one.number} twice", path, rf"(?P<a>{row}[^\n]*\n)", r"\g<a>\g<a>")
        if fields == 3:
            yield Edit(place, f"the remedy of {one.number}", path, rf"{row} {loose(one.words)} \| (?P<it>{loose(one.remedy)}) \|", other)


def of_header(one):
    path, begin = "bindings/c/lichenoar.h", rf"^[ *]*{one.number} +"
    yield Edit("header", f"{one.number} under another number", path, rf"^(?P<a>[ *]*){one.number}(?P<b> +{loose(one.words)};)", r"\g<a>9" + str(one.number) + r"\g<b>")
    yield Edit("header", f"the words of {one.number}", path, rf"{begin}(?P<it>{loose(one.words)});", other)
    yield Edit("header", f"the remedy of {one.number}", path, rf"{begin}{loose(one.words)};[\s*]+(?P<it>{loose(one.remedy)})$", other)
    yield Edit("header", f"no line for {one.number}", path, rf"{begin}{loose(one.words)};[\s*]+{loose(one.remedy)}\n", "")
    yield Edit("header", f"more behind {one.number}", path, rf"(?P<a>{begin}{loose(one.words)};[\s*]+{loose(one.remedy)})$", r"\g<a> or not")


def of_rust(one):
    path, until = "bindings/rust/src/refusal.rs", r"(?:(?!\n    \}).)*?"
    arm = rf"Refusal::{one.case}\s*=>\s*"
    for name, said in (("words", one.words), ("remedy", one.remedy)):
        yield Edit("Rust", f"the {name} of {one.number}", path, rf"fn {name}\({until}{arm}\{{?\s*\"(?P<it>{re.escape(said)})\"", other)
        yield Edit("Rust", f"no {name} for {one.number}", path, rf"(?P<a>fn {name}\({until}){arm}\{{?\s*\"{re.escape(said)}\"", r'\g<a>_ => ""')
    yield Edit("Rust", f"{one.number} as another number", path, rf"(?P<a>fn number\({until}{arm}){one.number}(?!\d)", r"\g<a>9" + str(one.number))
    yield Edit("Rust", f"another number read as {one.case}", path, rf"(?P<a>fn from_number\({until}\s){one.number}(?P<b>\s*=>\s*Refusal::{one.case}\b)", r"\g<a>9" + str(one.number) + r"\g<b>")


def of_crate(one, entries):
    source, definition = "crates/refusal/src/refusal.rt", "crates/refusal/specs/Number.antt"
    yield Edit("crate", f"{one.number} as another number", source, rf"(?P<a>Refusal::{one.case} => ){one.number},", r"\g<a>9" + str(one.number) + ",")
    yield Edit("crate", f"{one.number} defined as another number", definition, rf"^(?P<a>number_of {one.case} = ){one.number}$", r"\g<a>9" + str(one.number))
    yield Edit("crate", f"no case {one.case}", source, rf"^    {one.case},\n", "")
    yield Edit("crate", f"a case behind {one.case}", source, rf"^(?P<a>    {one.case},\n)", r"\g<a>    Another,\n")
    if one != entries[0]:
        before = entries[entries.index(one) - 1].case
        yield Edit("crate", f"{one.case} before {before}", source, rf"^(?P<a>    {before},\n)(?P<b>.*?)(?P<c>    {one.case},\n)", r"\g<c>\g<b>\g<a>")


def of_claims(one):
    rest = r"(?:(?!\n\S).)*?"
    for giver, (path, record) in same.RECORDS.items():
        if giver in one.given_by:
            for_all = rf"(?P<a>^pub record {record}\b{rest}pub listed\b[^≡]*≡)(?P<l>(?:\s*\d+\s*∷)+)"
            yield Edit("claims", f"{giver} gives no {one.number}", path, for_all, lambda m: m["a"] + re.sub(rf"(?<!\d){one.number}\s*∷", "", m["l"]))
        else:
            yield Edit("claims", f"{giver} gives {one.number} too", path, rf"(?P<a>^pub record {record}\b{rest}pub listed\b[^≡]*≡)", rf"\g<a> {one.number} ∷")
    for giver, field in same.NO_OTHER:
        path, record = same.RECORDS[giver]
        all_that = rf"(?P<a>^pub record {record}\b{rest}pub {field} :{rest}\(0 ∷)(?P<l>[^\]]*)"
        if giver in one.given_by:
            yield Edit("claims", f"{giver}, {field} without {one.number}", path, all_that, lambda m: m["a"] + re.sub(rf"(?<!\d){one.number} ∷", "", m["l"]))
        else:
            yield Edit("claims", f"{giver}, {field} with {one.number}", path, all_that, rf"\g<a> {one.number} ∷\g<l>")
    all_that = rf"(?P<a>^pub record OfPage\b{rest}pub no_other :{rest}\(0 ∷)(?P<l>[^\]]*)"
    if "page" in one.given_by:
        yield Edit("claims", f"a page without {one.number}", same.PAGES, all_that, lambda m: m["a"] + re.sub(rf"(?<!\d){one.number} ∷", "", m["l"]))
    else:
        yield Edit("claims", f"a page with {one.number}", same.PAGES, all_that, rf"\g<a> {one.number} ∷\g<l>")
    path = same.CLAIMS
    a_line = r"(?P<a>^  pub no_other : \(line\b[^\n]*\(0 ∷)(?P<l>[^\]\n]*)"
    if {"K", "I", "frame"} & set(one.given_by):
        yield Edit("claims", f"no line with {one.number}", path, a_line, lambda m: m["a"] + re.sub(rf"(?<!\d){one.number} ∷", "", m["l"]))
    else:
        yield Edit("claims", f"a line with {one.number}", path, a_line, rf"\g<a> {one.number} ∷\g<l>")
    if "frame" in one.given_by:
        yield Edit("claims", f"frames get another number than {one.number}", path, rf"(?P<a>number ≡ ){one.number}(?P<b> → parsed_of line ≡ None)", r"\g<a>99\g<b>")
        no_request = rf"(?P<a>requested_of line ≡ None → \(\(line_swept line\)\.number ≡ ){one.number}(?=\))"
        yield Edit("claims", f"requests get another number than {one.number}", same.SWEEPS, no_request, r"\g<a>99")


def swapped(match):
    """The match with the first two of the numbers behind its name, or behind its words, changed over."""
    return match["a"] + match["d"] + match["c"] + match["b"]


def of_order():
    for path, givers in same.ORDERED.items():
        for giver in givers:
            named = rf"(?<![\w-]){same.NAMED[giver]}: "
            yield Edit("order", f"the order of {giver}", path, rf"(?P<a>{named})(?P<b>\d+)(?P<c>, )(?P<d>\d+)(?=[, ]|\n)", swapped)
            yield Edit("order", f"the order of {giver} without its first", path, rf"(?P<a>{named})\d+, (?=\d)", r"\g<a>")
            yield Edit("order", f"no order of {giver}", path, rf"{named}(?=\d+, )", "")
    for last in ("6, 7", "5"):
        behind = rf"(?P<a>Refused by (?:\d+,\s+)*)(?P<b>11)(?P<c>, )(?P<d>12)(?=,\s+(?:4,\s+)?{last} or 8\.)"
        yield Edit("order", f"what refuses, to {last} or 8", "bindings/c/lichenoar.h", behind, swapped)
    yield Edit("order", "what refuses a sweep", "bindings/c/lichenoar.h", r"(?P<a>Refused by )(?P<b>13)(?P<c>,\s+)(?P<d>9)(?=,)", swapped)
    for path, record in same.RECORDS.values():
        listed_as = rf"(?P<a>^pub record {record}\b(?:(?!\n\S).)*?pub listed\b[^≡]*≡\s*)(?P<b>\d+)(?P<c> ∷ )(?P<d>\d+)(?= ∷)"
        yield Edit("order", f"the order that {record} has", path, listed_as, swapped)


def of_frames(one):
    path, old = "tools/frames/frame.py", r"for one in listed\.read\(\)\}"
    for what, said in ((f"the words of {one.number}", f"{spoiled(one.words)}; {one.remedy}"), (f"the remedy of {one.number}", f"{one.words}; {spoiled(one.remedy)}")):
        yield Edit("frames", what, path, old, f"for one in listed.read()}} | {{{one.number}: {said!r}}}")
    yield Edit("frames", f"{one.number} not known", path, old, f"for one in listed.read() if one.number != {one.number}}}")
    yield Edit("frames", f"{one.number} under another number", path, r"\{one\.number: one\.said\(\)", f"{{9{one.number} if one.number == {one.number} else one.number: one.said()")


def of_list(one):
    path, row = "docs/refusals.txt", rf"^{one.number} \| {one.case} \| "
    yield Edit("", f"another number for {one.case}", path, rf"^{one.number}(?P<a> \| {one.case} \|)", r"2\g<a>" if one.number == 1 else r"201\g<a>")
    yield Edit("", f"another name for {one.number}", path, rf"^(?P<a>{one.number} \| ){one.case}", r"\g<a>Another")
    yield Edit("", f"the words of {one.number}", path, rf"{row}[^|]*\| (?P<it>{re.escape(one.words)}) \|", other)
    yield Edit("", f"the remedy of {one.number}", path, rf"{row}[^|]*\| {re.escape(one.words)} \| (?P<it>{re.escape(one.remedy)})$", other)
    yield Edit("", f"no {one.number}", path, rf"{row}[^\n]*\n", "")
    yield Edit("", f"{one.number} without a remedy", path, rf"(?P<a>{row}[^|]*\| {re.escape(one.words)}) \|[^\n]*", r"\g<a>")
    for giver in listed.GIVERS:
        if giver not in one.given_by:
            yield Edit("", f"{one.number} given by {giver} too", path, rf"(?P<a>{row}[^|]*) \|", rf"\g<a> {giver} |")


def edits(entries):
    for one in entries:
        for made in (of_tables(one), of_header(one), of_rust(one), of_crate(one, entries), of_claims(one), of_frames(one), of_list(one)):
            yield from made
    yield from of_order()
    last = entries[-1].number
    yield Edit("README", "a row too many", "README.md", rf"^(?P<a>\| {last} \| [^\n]*\n)", rf"\g<a>| {last + 1} | K | nothing | nothing |\n")
    yield Edit("SCOPE", "a row too many", "docs/SCOPE.md", rf"^(?P<a>\| {last} \| [^\n]*\n)", rf"\g<a>| {last + 1} | K | nothing | never |\n")
    yield Edit("header", "0 is another word", "bindings/c/lichenoar.h", r"^(?P<a>[ *]*0 +)answered$", r"\g<a>refused")
    yield Edit("Rust", "Display without its words", "bindings/rust/src/refusal.rs", r"self\.number\(\), self\.words\(\)", "self.number(), self.remedy()")
    yield Edit("frames", "a traceback", "tools/frames/frame.py", r"^def refused\(given, meanings\):\n", r"def refused(given, meanings):\n    raise KeyError\n")
    yield Edit("", "a number with no case", "docs/refusals.txt", rf"^(?P<a>{last} \| [^\n]*\n)", rf"\g<a>{last + 1} | Another | K | nothing | nothing\n")


def starred(match):
    """The header's first comment as one of short lines that begin with stars."""
    lines = [line for number, said in same.header_entries(match.group()) for line in textwrap.wrap(f"{number:<3} {said}", 60, subsequent_indent="      ")]
    return "/*\n" + "".join(f" * {line}\n" for line in lines) + " */"


def folded(match):
    """A string over two lines, in braces, as rustfmt leaves a long one."""
    return "{\n" + 16 * " " + match.group().replace(" order", " \\\n" + 17 * " " + "order", 1) + "\n            }"


def other_forms(entries):
    """Edits that change the look and no word, which must be taken."""
    longest = max(entries, key=lambda one: len(one.remedy) if " order" in one.remedy else 0)
    yield Edit("header", "short lines with stars", "bindings/c/lichenoar.h", r"\A/\*.*?\*/", starred)
    yield Edit("Rust", "a string over two lines", "bindings/rust/src/refusal.rs", re.escape(f'"{longest.remedy}"'), folded)


def tried(edit, top):
    """What same.py says of the copy with this edit; the copy is then as before."""
    path = os.path.join(top, edit.path)
    kept = same.text_of(top, edit.path)
    with open(path, "w", encoding="utf-8") as file:
        file.write(edit.apply(kept))
    found = same.held(top, (edit.place,) if edit.place else tuple(name for name in same.PLACES if name != "frames"))
    with open(path, "w", encoding="utf-8") as file:
        file.write(kept)
    return found


def main():
    with tempfile.TemporaryDirectory() as top:
        for path in same.READ:
            os.makedirs(os.path.dirname(os.path.join(top, path)), exist_ok=True)
            shutil.copy(os.path.join(listed.TOP, path), os.path.join(top, path))
        whole = same.held(top)
        if whole:
            print("same.py --broken: the places differ before one is broken: same.py names them")
            return 1
        entries, caught = listed.read(top), {}
        for edit in other_forms(entries):
            found = tried(edit, top)
            if found:
                print(f"same.py --broken: not taken: {edit}: {found}")
                return 1
        for edit in edits(entries):
            found = tried(edit, top)
            if not found or (edit.place and edit.place not in found):
                print(f"same.py --broken: not caught: {edit}")
                return 1
            caught[edit.place or "list"] = caught.get(edit.place or "list", 0) + 1
        if same.held(top):
            print("same.py --broken: the copy was not mended")
            return 1
    print(f"same.py --broken: {sum(caught.values())} edits, each caught: " + ", ".join(f"{name} {number}" for name, number in caught.items()))
    return 0
