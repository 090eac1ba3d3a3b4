#!/usr/bin/env python3
"""run.py [PAGE]: runs the commands of a page (README.md where none is named), as a reader would copy them, and holds what they print to what the page shows.

In a block, indented by four or fenced by ```, a line `$ COMMAND` is a command, and the lines behind it are what it prints, on standard output and standard error
together, trailing blanks aside. A command that ends with \\ goes on in the next line. Each is run by bash at the repository's top with a home folder of its own, which
is removed afterwards. A command that shows nothing must end with status 0. A block with no `$ ` is not run. Ends with 1 and both texts where they differ.

Links to files, and files of the repository that the page names (docs/.., tools/.., and so on; * stands for any name; X.md beside the page or at the top), must be there."""
import glob
import os
import re
import subprocess
import sys
import tempfile

TOP = os.path.abspath(os.path.join(os.path.dirname(__file__), "..", ".."))
SECONDS = 120
LINK = re.compile(r"\]\((?!https?:)([^)#\s]+)")
NAMED = re.compile(r"(?<![\w./-])((?:docs|tools|bindings|crates|oracle|bench)/[\w./*-]*[\w*]|[A-Z][A-Z-]*\.md)")


def absent(page, text):
    """What the page links to or names, and is not there. A link is counted from the page's folder."""
    beside = os.path.dirname(os.path.abspath(page))
    there = lambda *paths: any(glob.glob(path) for path in paths)
    links = [name for name in LINK.findall(text) if not there(os.path.join(beside, name))]
    named = [name for name in NAMED.findall(LINK.sub("", text)) if not there(os.path.join(TOP, name), os.path.join(beside, name))]
    return sorted(set(links + named))


def blocks(lines):
    """The blocks of a page, each a list of (line number, text without the indent)."""
    out, block, fence = [], [], None
    for number, line in enumerate(lines, 1):
        mark = line.strip()
        if fence is not None:
            if mark == fence:
                fence = None
            else:
                block.append((number, line))
                continue
        elif mark.startswith("```") or mark.startswith("~~~"):
            fence = mark[:3]
        elif line.startswith("    ") or (block and not mark):
            block.append((number, line[4:]))
            continue
        if block:
            out.append(block)
        block = []
    return out + [block] if block else out


def commands(block):
    """Line number, command and shown lines of each command of a block; a block that does not begin with one has none."""
    out = []
    for number, line in block:
        if out and out[-1][1].endswith("\\"):
            out[-1][1] += "\n" + line.strip()
        elif line.startswith("$ "):
            out.append([number, line[2:].strip(), []])
        elif out:
            out[-1][2].append(line.rstrip())
        elif any(text.startswith("$ ") for _, text in block):
            sys.exit(f"run.py: line {number}: a block with commands begins with one")
    for command in out:
        while command[2] and not command[2][-1]:
            command[2].pop()
    return out


def printed(command, home):
    """What a command prints, by lines, and its status."""
    before = os.path.expanduser("~")
    environment = dict(os.environ, HOME=home)
    for name, folder in (("CARGO_HOME", ".cargo"), ("RUSTUP_HOME", ".rustup")):
        environment.setdefault(name, os.path.join(before, folder))
    try:
        done = subprocess.run(["bash", "-c", command], cwd=TOP, env=environment, stdin=subprocess.DEVNULL, stdout=subprocess.PIPE, stderr=subprocess.STDOUT, timeout=SECONDS, check=False)
    except subprocess.TimeoutExpired:
        return [f"(nothing in {SECONDS} s)"], 1
    lines = [line.rstrip() for line in done.stdout.decode(errors="replace").split("\n")]
    while lines and not lines[-1]:
        lines.pop()
    return lines, done.returncode


def main(words):
    page = words[0] if words else os.path.join(TOP, "README.md")
    with open(page, encoding="utf-8") as file:
        text = file.read()
    found = [command for block in blocks(text.split("\n")) for command in commands(block)]
    if not found:
        sys.exit(f"run.py: {page} has no command")
    gone = absent(page, text)
    for name in gone:
        print(f"run.py: {os.path.basename(page)} names {name}, which is not there")
    wrong = 0
    with tempfile.TemporaryDirectory() as home:
        for number, command, shown in found:
            lines, status = printed(command, home)
            if lines != shown:
                print(f"run.py: line {number}: $ {command}", "the page shows:", *shown, "it prints:", *lines, sep="\n")
            elif not shown and status:
                print(f"run.py: line {number}: $ {command}", f"it prints nothing, as shown, but ends with {status}", sep="\n")
            else:
                continue
            wrong += 1
    print(f"run.py: {len(found) - wrong} of {len(found)} commands of {os.path.basename(page)} print what it shows")
    return 1 if wrong or gone else 0


if __name__ == "__main__":
    sys.exit(main(sys.argv[1:]))
