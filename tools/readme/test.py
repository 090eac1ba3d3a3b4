#!/usr/bin/env python3
"""Tests run.py with pages made up for it: it passes what prints as shown, and fails what does not."""
import os
import subprocess
import sys
import tempfile

HERE = os.path.dirname(os.path.abspath(__file__))

GOOD = """# A page
Text with $ signs, a [link](https://none.example/gone.md), docs/SCOPE.md, (tools/readme/run.py), crates/*/specs, README.md, and target/nothing, which is built.

    $ echo one; echo two >&2
    one
    two
    $ printf 'a  \\n\\nb\\n'
    a

    b

Words.

```
$ test -f README.md && ls tools/readme/run.py
tools/readme/run.py
$ echo long \\
    line
long line
$ echo gone > ~/file && cat ~/file     # a home of its own
gone
```

    rm -rf would be run if it had a dollar

```sh
exit 3
```

    $ false; echo "status $?"
    status 1
    $ true
"""

# each has one thing wrong, and the words that the complaint must have
BROKEN = (
    ("    $ echo one\n    two\n", ["line 1: $ echo one", "the page shows:\ntwo\n", "it prints:\none\n"]),
    ("    $ echo one\n", ["it prints:\none\n"]),
    ("    $ true\n    one\n", ["the page shows:\none\n"]),
    ("    $ echo one; echo two\n    one\n", ["it prints:\none\ntwo\n"]),
    ("    $ printf 'one\\n\\ntwo\\n'\n    one\n    two\n", ["it prints:\none\n\ntwo\n"]),
    ("    $ echo ' one'\n    one\n", ["it prints:\n one\n"]),
    ("    $ false\n", ["ends with 1"]),
    ("    $ echo a\n    a\n\nText.\n\n```\n$ echo b\nc\n```\n", ["line 7: $ echo b", "1 of 2 commands"]),
    ("    $ no-such-command-here\n    fine\n", ["not found"]),
    ("Nothing to run.\n\n    ls\n", ["has no command"]),
    ("    output first\n    $ echo a\n    a\n", ["begins with one"]),
    ("A [link](docs/gone) away.\n\n    $ true\n", ["PAGE.md names docs/gone, which is not there", "1 of 1 commands"]),
    ("A [link](docs/SCOPE.md), counted from this folder.\n\n    $ true\n", ["names docs/SCOPE.md, which"]),
    ("See docs/GONE.md.\n\n    $ true\n", ["names docs/GONE.md, which"]),
    ("See tools/none/*.py, or `bindings/none`.\n\n    $ true\n", ["names tools/none/*.py, which", "names bindings/none, which"]),
    ("See GONE-TOO.md for it.\n\n    $ true\n", ["names GONE-TOO.md, which"]),
)


def run(text):
    with tempfile.TemporaryDirectory() as room:
        page = os.path.join(room, "PAGE.md")
        with open(page, "w", encoding="utf-8") as out:
            out.write(text)
        done = subprocess.run([sys.executable, os.path.join(HERE, "run.py"), page], capture_output=True, text=True, check=False)
        return done.returncode, done.stdout + done.stderr


def main():
    status, said = run(GOOD)
    assert status == 0 and "7 of 7 commands" in said, said
    for text, words in BROKEN:
        status, said = run(text)
        assert status == 1, (text, said)
        for word in words:
            assert word in said, (text, word, said)
    print(f"tools/readme: a page that is right passes, {len(BROKEN)} that are not fail")


if __name__ == "__main__":
    main()
