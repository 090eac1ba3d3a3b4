"""The layout of frames, once, for ask.py, show.py and times.py: docs/SCOPE.md, The frame program, has it in words. Also how people write
numbers, and what a refusal's number means, which docs/refusals.txt says."""
import math
import os
import re
import struct
import sys

sys.path.insert(1, os.path.join(os.path.dirname(os.path.abspath(__file__)), "..", "refusals"))
import listed  # noqa: E402

KINDS = {"K": 1, "I": 2}
ASKING = ">BBHddd"
RECORD = ">BhHHH"
MOST_PAIRS = 512
DECIMAL = re.compile(r"[+-]?([0-9]+(\.[0-9]*)?|\.[0-9]+)([eE][+-]?[0-9]+)?")
SPECIAL = re.compile(r"[+-]?(Infinity|inf|NaN|nan)")
BITS = re.compile(r"bits:[0-9A-Fa-f]{16}")
MINUSES = "\u2010\u2011\u2012\u2013\u2014\u2212"


class Wrong(ValueError):
    """Words that cannot be taken; the text is one line for the person who wrote them."""


def visible(word):
    """The word on one line of at most 60 characters, whatever is in it."""
    text = "".join(c if c.isprintable() else c.encode("unicode_escape", "surrogatepass").decode("ascii") for c in word)
    return (text if len(text) <= 60 else text[:57] + "..") or "an empty word"


def bits_of(value):
    return struct.unpack(">Q", struct.pack(">d", value))[0]


def value_of(bits):
    return struct.unpack(">d", struct.pack(">Q", bits))[0]


def word_of(value):
    """NaN, Infinity or -Infinity, the words that number takes too; none for a finite value."""
    if math.isfinite(value):
        return ""
    return "NaN" if math.isnan(value) else "Infinity" if value > 0 else "-Infinity"


def decimal(value):
    """As few digits as give the same f64 when they are read again, 17 at most."""
    return word_of(value) or repr(value).removesuffix(".0")


def digits(value):
    """17 significant digits."""
    return word_of(value) or f"{value:.17g}"


def number(field, word):
    """The bits of the f64 that a word means: a decimal number, Infinity or NaN, or bits:3FD0000000000000."""
    if BITS.fullmatch(word):
        return int(word[5:], 16)
    if word.startswith("bits:"):
        raise Wrong(f"{field}: {visible(word)} has not 16 hexadecimal digits behind bits:")
    if SPECIAL.fullmatch(word):
        return 0x7FF8000000000000 if word.lower().endswith("nan") else bits_of(float(word))
    if not DECIMAL.fullmatch(word):
        raise Wrong(f"{field}: {visible(word)} is no number; {advice(word)}")
    value = float(word)
    if math.isinf(value):
        raise Wrong(f"{field}: {visible(word)} is above the largest f64, 1.7976931348623157e308")
    if value == 0 and re.search("[1-9]", re.split("[eE]", word)[0]):
        raise Wrong(f"{field}: {visible(word)} is below the least f64, 5e-324; write 0 if 0 is meant")
    return bits_of(value)


def advice(word):
    if re.fullmatch(r"[+-]?[0-9]*,[0-9]*([eE][+-]?[0-9]+)?", word):
        return "write a decimal point"
    if any(c in MINUSES for c in word):
        return "its minus is another character; write -"
    if re.fullmatch(r"(?i)[+-]?(inf(inity)?|nan)", word):
        return "write Infinity, -Infinity or NaN"
    return "write it as 0.25, -1.5e-3 or bits:3FD0000000000000"


def told(words, tool, options, fields, least):
    """The words of a command without its options, and the options among them; as many words as there are fields, or some of the last left out."""
    given = [word for word in words if word in options]
    words = [word for word in words if word not in options]
    for word in words:
        if re.match(r"--|-[A-Za-z]", word) and not SPECIAL.fullmatch(word):
            raise Wrong(f"{visible(word)} is no word of {tool}; see --help")
    if len(words) < least:
        raise Wrong(f"{', '.join(fields[len(words):least])}: missing; see --help")
    if len(words) > len(fields):
        raise Wrong(f"{visible(words[len(fields)])}: one word too many; see --help")
    return words, given


def kind_of(field, word):
    if word not in KINDS:
        raise Wrong(f"{field}: {visible(word)} is none; write K or I")
    return word


def whole(field, word, most, line):
    """A count, as the two bytes of its field in such a line hold it: what they hold and is refused is left to the program."""
    if not re.fullmatch(r"[+-]?[0-9]+", word):
        raise Wrong(f"{field}: {visible(word)} is no whole number; write 1 to {most}")
    if len(word) > 9 or not 0 <= int(word) <= 65535:
        raise Wrong(f"{field}: {visible(word)} does not fit into {line}; write 1 to {most}")
    return int(word)


def framed(kind, scaled, count, order, re_part, im_part):
    """The asking frame, 56 digits, of a count and of the bits of three numbers."""
    return struct.pack(">BBHQQQ", KINDS[kind], 1 if scaled else 0, count, order, re_part, im_part).hex().upper()


def asking(kind, scaled, order, count, re_part, im_part):
    """The asking frame of three f64s. -0.0 keeps its sign."""
    return framed(kind, scaled, count, *map(bits_of, (order, re_part, im_part)))


def answer(line):
    """Number, zeros, longest sum, rungs, backward steps, and the pairs, from an answer line (bytes, without its newline). Which numbers there are is not asked here."""
    head = struct.calcsize(RECORD)
    if line.endswith(b"\r"):
        raise Wrong("it ends in a carriage return; take it away with tr -d '\\r'")
    if re.fullmatch(rb"[0-9A-Fa-f]*", line) and re.search(rb"[a-f]", line):
        raise Wrong("its digits are not in upper case")
    if not re.fullmatch(rb"[0-9A-F]*", line):
        raise Wrong("a character of it is no hexadecimal digit")
    if len(line) == 56:
        raise Wrong("it has 56 digits, as an asking frame has: pass it through ./run first")
    pairs, rest = divmod(len(line) - 2 * head, 32)
    if pairs < 0 or rest:
        raise Wrong(f"it has {len(line)} digits, not 18 and 32 for each order")
    data = bytes.fromhex(line.decode("ascii"))
    record = struct.unpack(RECORD, data[:head])
    if record[0] and pairs:
        raise Wrong(f"it has cells behind the refusal {record[0]}")
    if not record[0] and not 1 <= pairs <= MOST_PAIRS:
        raise Wrong(f"an answer has 1 to {MOST_PAIRS} orders, and it has {pairs}")
    cells = struct.unpack(f">{2 * pairs}d", data[head:])
    return record, list(zip(cells[::2], cells[1::2]))


def refusals():
    """What each refusal says, by number. OSError or ValueError where the list cannot be read."""
    return {one.number: one.said() for one in listed.read()}


def refused(given, meanings):
    """The line that says a refusal: its words and what to do about it."""
    return f"refusal {given}: {meanings[given]}" if given in meanings else f"refusal {given}, not known here"


# ---- what every tool for people keeps to: one line on standard error for what failed, no traceback
def say(text):
    """One line on standard error, where there is one."""
    try:
        print(text, file=sys.stderr or open(os.devnull, "w", encoding="utf-8"), flush=True)
    except OSError:
        pass


def put(text):
    """Text onto standard output, at once. OSError where it is closed, full or no longer read."""
    if sys.stdout is None:
        raise OSError("it is closed")
    sys.stdout.buffer.write(text.encode("utf-8"))
    sys.stdout.buffer.flush()


def lost(tool, wrong):
    """Says that output was lost, and leaves nothing for Python to write when it ends."""
    say(f"{tool}: standard output cannot be written: {wrong.strerror or wrong}")
    if sys.stdout is not None:
        os.dup2(os.open(os.devnull, os.O_WRONLY), sys.stdout.fileno())
    return 1


def ended(tool, main):
    """Ends the process with what main gives: 0, 1 or 2, and 1 where it was stopped from the keyboard."""
    try:
        status = main(sys.argv[1:])
    except KeyboardInterrupt:
        say(f"{tool}: stopped")
        status = 1
    sys.exit(status)
