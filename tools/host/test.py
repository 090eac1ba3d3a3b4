#!/usr/bin/env python3
"""Tests same_code.py over the proved frame program's object: the same passes, functions in another order pass, and one bit changed in any function, table or list of
constants fails. Then program.sh in a repository made up for it, on a machine that says it is aarch64: where something is missing it ends in one line that says what to run."""
import os
import shutil
import subprocess
import sys
import tempfile

from same_code import Object, difference

HERE = os.path.dirname(os.path.abspath(__file__))
PROVED = os.path.join(HERE, "..", "..", "target", "obj", "lichenoar.o")


VERSION = "kit-under-test logic 1"
OBJECT = "program.sh: target/obj/prog.o, the object of the proved program, is missing; first run: rm -f target/stamp/prog && ./run prog < /dev/null"


def write(path, text, mode=0o644):
    os.makedirs(os.path.dirname(path), exist_ok=True)
    with open(path, "w", encoding="utf-8") as out:
        out.write(text)
    os.chmod(path, mode)


class Made:
    """A repository with one program, proved; a kit whose rt knows its version alone; and a path of links to this machine's tools."""

    def __init__(self, room):
        self.repo, self.kit, self.path = (os.path.join(room, name) for name in ("a repo", "kit", "path"))
        for name in ("program.sh", "module.sh", "kit.sh", "build.sh"):
            write(self.at(f"tools/host/{name}"), "")
            shutil.copy(os.path.join(HERE, name), self.at(f"tools/host/{name}"))
        for path, text in (("crates.txt", "prog:\nlaws:\n"), ("KIT", VERSION + "\n"), ("crates/prog/src/main.rt", ""), ("crates/laws/src/lib.rt", "")):
            write(self.at(path), text)
        write(self.at("target/stamp/prog"), "")
        write(self.at("target/bin/prog"), "", 0o755)
        write(os.path.join(self.kit, "bin/rt"), f"#!/bin/sh\necho {VERSION}\n", 0o755)
        write(os.path.join(self.kit, "on/aarch64/toolchain/bin/clang"), "", 0o755)
        write(os.path.join(self.path, "uname"), "#!/bin/sh\necho aarch64\n", 0o755)
        for tool in ("bash", "sh", "env", "cat", "dirname", "basename", "readlink", "mkdir", "find", "flock", "setsid", "touch", "rm", "ln", "cp", "gcc", "python3"):
            os.symlink(shutil.which(tool), os.path.join(self.path, tool))
        os.symlink(os.path.join(self.kit, "bin/rt"), os.path.join(self.path, "rt"))

    def at(self, path):
        return os.path.join(self.repo, path)

    def said(self, *words):
        """Status, standard output and standard error of program.sh."""
        done = subprocess.run([self.at("tools/host/program.sh"), *words], env={"PATH": self.path, "RATTLE_HOME": self.kit}, capture_output=True, text=True, timeout=60, check=False)
        return done.returncode, done.stdout, done.stderr

    def without(self, path, wanted):
        """What program.sh says while a file of this repository, kit or path is away."""
        os.rename(path, path + ".away")
        got = self.said("prog")
        os.rename(path + ".away", path)
        assert got == (1, "", wanted + "\n"), (path, got)


def missing():
    """Each thing that program.sh needs, taken away."""
    with tempfile.TemporaryDirectory() as room:
        made = Made(os.path.realpath(room))
        tool, kit = (lambda name: os.path.join(made.path, name)), os.path.join(made.kit, "on/aarch64/toolchain/bin/clang")
        for name in ("none", "laws", "../prog", "a b"):
            assert made.said(name) == (2, "", f"program.sh: there is no program {name}; there are: prog\n"), (name, made.said(name))
        assert made.said("prog") == (1, "", OBJECT + "\n"), made.said("prog")
        write(made.at("target/obj/prog.o"), "")
        for name in ("gcc", "python3"):
            made.without(tool(name), f"program.sh: this machine has no {name}; install it first (Debian: apt-get install {name})")
        made.without(tool("rt"), f"program.sh: prog has to be proved and compiled, and this machine has no rt (the Rattle kit {VERSION}; README.md says where it comes from)")
        made.without(kit, f"program.sh: the kit in {made.kit} has no compiler for aarch64 ({kit}); first put rt of a whole kit on the path")
        made.without(made.at("target/obj/prog.o"), OBJECT)
        made.without(made.at("target/obj"), OBJECT)
        assert not os.path.exists(made.at("target/host/prog")), "a program was written"


def main():
    if not os.path.exists(PROVED):
        sys.exit("tools/host/test.py: target/obj/lichenoar.o is missing; first run: rm -f target/stamp/lichenoar && ./run lichenoar < /dev/null")
    whole = Object(PROVED)
    functions = whole.functions()
    assert len(functions) > 10, len(functions)
    assert difference(functions, dict(reversed(functions.items()))) is None
    assert difference(functions, {}) and difference({}, {})
    less = dict(functions)
    less.pop(next(iter(less)))
    assert difference(functions, less)
    tried = 0
    with tempfile.TemporaryDirectory() as room:
        path = os.path.join(room, "changed.o")
        for i, name in enumerate(whole.names):
            if not name.startswith((".text.", ".rodata")):
                continue
            changed = bytearray(whole.bytes)
            changed[whole.sections[i][4] + whole.sections[i][5] // 2] ^= 1
            with open(path, "wb") as out:
                out.write(changed)
            assert difference(Object(path).functions(), functions), name
            tried += 1
        done = subprocess.run([sys.executable, os.path.join(HERE, "same_code.py"), path, PROVED], capture_output=True, text=True, check=False)
        assert done.returncode == 1 and "differ" in done.stderr, done
        done = subprocess.run([sys.executable, os.path.join(HERE, "same_code.py"), PROVED, PROVED], capture_output=True, text=True, check=False)
        assert done.returncode == 0, done
        done = subprocess.run([sys.executable, os.path.join(HERE, "same_code.py"), path, path + ".none"], capture_output=True, text=True, check=False)
        assert (done.returncode, done.stderr) == (1, f"same_code.py: {path}.none cannot be read: No such file or directory\n"), done
    missing()
    print(f"tools/host: {len(functions)} functions compared, {tried} changes of one bit seen; program.sh says what it misses")


if __name__ == "__main__":
    main()
