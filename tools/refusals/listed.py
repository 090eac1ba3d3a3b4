"""docs/refusals.txt, read: one entry a line, `number | case | who gives it | words | remedy`, ascending, every field there. For tools/frames and same.py."""
import os
from typing import NamedTuple

TOP = os.path.dirname(os.path.dirname(os.path.dirname(os.path.abspath(__file__))))
GIVERS = ("K", "I", "log-gamma", "frame", "sweep", "page")


class Listed(NamedTuple):
    number: int
    case: str
    given_by: tuple
    words: str
    remedy: str

    def said(self):
        """Words and remedy in one breath, as the header and show have them."""
        return f"{self.words}; {self.remedy}"


def entry(line):
    fields = [field.strip() for field in line.split(" | ")]
    if len(fields) != 5 or not all(fields):
        raise ValueError("not five fields with ' | ' between them")
    number, case, given_by, words, remedy = fields
    if not (number.isascii() and number.isdigit() and number == str(int(number)) and 1 <= int(number) <= 255):
        raise ValueError(f"{number} is no number from 1 to 255")
    if not case.isidentifier():
        raise ValueError(f"{case} is no case's name")
    if not set(given_by.split()) <= set(GIVERS):
        raise ValueError(f"{given_by}: who gives it is of {', '.join(GIVERS)}")
    if not (words + remedy).isascii() or "\\" in words + remedy or '"' in words + remedy:
        raise ValueError("words and remedy are of ASCII, with no backslash and no quotation mark: they stand in C and Rust too")
    return Listed(int(number), case, tuple(given_by.split()), words, remedy)


def read(top=TOP):
    """The entries. ValueError names the line that is none; OSError where the list cannot be read."""
    found = []
    with open(os.path.join(top, "docs", "refusals.txt"), encoding="utf-8") as lines:
        for at, line in enumerate(lines, 1):
            if not line.strip() or line.startswith("#"):
                continue
            try:
                found.append(entry(line))
            except ValueError as wrong:
                raise ValueError(f"docs/refusals.txt:{at}: {wrong}") from None
            if len(found) > 1 and found[-2].number >= found[-1].number:
                raise ValueError(f"docs/refusals.txt:{at}: {found[-1].number} does not come after {found[-2].number}")
    if not found:
        raise ValueError("docs/refusals.txt has no entry")
    if len({one.case for one in found}) != len(found):
        raise ValueError("docs/refusals.txt has a case twice")
    return found
