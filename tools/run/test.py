#!/usr/bin/env python3
"""Tests ./run in a repository made up for it, with a prover and programs that stand in for the real ones: what is built and when, two at a time, what is said, status,
signals, closed descriptors. Then that descriptor 3 passes the kit's emulator (target/tests/status, from tools/run/status.c), and the real program where REAL is 1."""
import os
import pty
import shutil
import signal
import subprocess
import sys
import tempfile
import time

# 1: the frame program tells of lost output and gives its status on descriptor 3
REAL = 1

TOP = os.path.abspath(os.path.join(os.path.dirname(__file__), "..", ".."))
VERSION = "kit-under-test logic 1"
ANSWERS = 'cat\necho "$# $*"\npwd\necho 0 >&3\n'
FRAME = b"010100023FD00000000000003FF8000000000000BFE8000000000000\n"

# proves what stands beneath `prog` as rt says it, and takes the program's source as the program
PROVER = r'''#!/usr/bin/env bash
echo "$*" >> "$RATTLE_HOME/calls"
case $1 in
version) cat "$RATTLE_HOME/KIT-ID" ;;
run)
    cat > "$RATTLE_HOME/eaten"
    echo "rt: mid: begins with what a check kept in elsewhere/crates/mid" >&2
    echo "rt: chose --jobs 2 for mid" >&2
    (sleep "$(cat "$RATTLE_HOME/seconds")") &
    echo $! > "$RATTLE_HOME/prover"
    wait
    [ ! -f "$RATTLE_HOME/refuses" ] || { echo "the goal that is open" >&2; echo "logic=not-proved" >&2; exit 1; }
    echo "fn mid::f: proved" >&2
    echo "logic=proved functions=1" >&2
    mkdir -p out
    if [ ! -f out/prog.stamp ] || ! cmp -s out/prog.stamp src/main.rt; then
        echo "rt: chose --jobs 2 for prog" >&2
        { echo '#!/usr/bin/env bash'; cat src/main.rt; } > out/prog
        chmod +x out/prog
        cp src/main.rt out/prog.stamp
        echo "logic=proved functions=2" >&2
    fi
    echo "rt: running out/prog; to give it other input, run that file yourself" >&2
    cat "$RATTLE_HOME/writes"
    ;;
esac
'''


def write(path, text, mode=0o644):
    os.makedirs(os.path.dirname(path), exist_ok=True)
    with open(path, "w") as out:
        out.write(text)
    os.chmod(path, mode)


class Made:
    """The made-up repository: prog over mid over low, and a crate apart."""

    def __init__(self, room):
        self.room, self.repo, self.kit = room, os.path.join(room, "repo"), os.path.join(room, "kit")
        for path in ("run", "tools/host/build.sh", "tools/host/kit.sh", "tools/run/status.sh"):
            os.makedirs(os.path.dirname(os.path.join(self.repo, path)), exist_ok=True)
            shutil.copy(os.path.join(TOP, path), os.path.join(self.repo, path))
        write(self.at("crates.txt"), "# leaves first\nlow:\nmid: low\napart: low\nprog: io mid\n")
        write(self.at("KIT"), VERSION + "\n")
        for crate in ("low", "mid", "apart"):
            write(self.at(f"crates/{crate}/src/lib.rt"), "")
        write(self.at("crates/low/specs/Low.antt"), "")
        write(self.at("crates/low/must-fail/one.edit"), "")
        write(self.at("crates/prog/src/main.rt"), ANSWERS)
        write(os.path.join(self.kit, "bin/rt"), PROVER, 0o755)
        write(os.path.join(self.kit, "KIT-ID"), VERSION + "\n")
        write(os.path.join(self.kit, "seconds"), "0")
        write(os.path.join(self.kit, "writes"), "")
        write(os.path.join(self.kit, "toolchain/lib/ld-linux-x86-64.so.2"), '#!/bin/sh\nshift 2\nexec "$@"\n', 0o755)
        self.environment = dict(os.environ, RATTLE_HOME=self.kit, PATH=os.path.join(self.kit, "bin") + ":/usr/bin:/bin")

    def at(self, path):
        return os.path.join(self.repo, path)

    def start(self, *words, **more):
        more = {"stdin": subprocess.PIPE, "stdout": subprocess.PIPE, "stderr": subprocess.PIPE, "cwd": self.room, "env": self.environment, **more}
        return subprocess.Popen([self.at("run"), *words], **more)

    def run(self, *words, data=b"", **more):
        """Status, standard output, lines of standard error."""
        done = self.start(*words, **more)
        out, said = done.communicate(data if more.get("stdin", subprocess.PIPE) == subprocess.PIPE else None, timeout=20)
        return done.returncode, (out or b"").decode(), said.decode().splitlines()

    def proofs(self):
        """How often the prover was asked to prove, since the last time."""
        path = os.path.join(self.kit, "calls")
        if not os.path.exists(path):
            return 0
        with open(path) as calls:
            number = sum(line.startswith("run") for line in calls)
        os.remove(path)
        return number

    def proving(self, seconds):
        """A run whose proof has begun, and goes on for so long."""
        write(os.path.join(self.kit, "seconds"), seconds)
        prover = os.path.join(self.kit, "prover")
        if os.path.exists(prover):
            os.remove(prover)
        write(self.at("crates/low/src/lib.rt"), seconds)
        begun = self.start("prog")
        soon(lambda: os.path.exists(prover), "no proof has begun")
        return begun

    def program(self, text):
        """Takes another program, and builds it."""
        self.proofs()
        write(self.at("crates/prog/src/main.rt"), text)
        subprocess.run(["bash", "-c", ". tools/host/kit.sh; . tools/host/build.sh; program_built prog"], cwd=self.repo, env=self.environment, stderr=subprocess.DEVNULL, check=True)
        expect(self.proofs(), 1, "another program")

    def changed(self, change, proofs, what):
        time.sleep(0.02)
        change()
        status, out, _ = self.run("prog", data=b"x\n")
        assert (status, out.split("\n")[0]) == (0, "x"), what
        assert self.proofs() == proofs, what
        assert self.run("prog")[2] == [] and self.proofs() == 0, what


def expect(got, wanted, what):
    assert got == wanted, f"{what}: {got!r} where {wanted!r} was expected"


def words(made):
    for word in ("--help", "-h"):
        status, out, said = made.run(word)
        assert (status, said) == (0, []) and "./run NAME" in out and "Status:" in out, word
    for word in ("none", "mid", "../prog", "-x", "--prog", "", "prog/../prog", "a b"):
        status, out, said = made.run(word)
        assert (status, out, len(said)) == (2, "", 1), (word, status, out, said)
    assert "there are: prog" in made.run("none")[2][0]
    link = os.path.join(made.room, "a link")
    os.symlink(made.at("run"), link)
    done = subprocess.run([link, "--help"], cwd="/", env=made.environment, capture_output=True, timeout=20, check=False)
    expect((done.returncode, b"./run NAME" in done.stdout, done.stderr), (0, True, b""), "by a link")
    expect(made.proofs(), 0, "words asked for no proof")


def builds(made):
    status, out, said = made.run("prog", "a", "b c", data=b"asked\n")
    expect((status, out), (0, f"asked\n2 a b c\n{made.room}\n"), "the first run")
    expect(said[1:], ["run: mid proved (0 s)", "run: prog proved (0 s)"], "a line a crate")
    assert said[0].startswith("run: proving and compiling what is new of prog and of the 2 crates beneath it") and "from nothing" in said[0], said
    expect(made.proofs(), 1, "the first run proves once")
    with open(os.path.join(made.kit, "eaten")) as eaten:
        expect(eaten.read(), "", "the prover reads nothing of the input")
    write(made.at("crates/prog/stdin"), "recorded\n")
    write(made.at("crates/prog/stdout"), "wanted\n")
    status, out, said = made.run("prog", data=b"asked\n")
    assert (status, out) == (1, "") and "does not write what crates/prog/stdout has" in said[-1], said
    write(os.path.join(made.kit, "writes"), "wanted\n")
    expect(made.run("prog", data=b"asked\n")[0], 0, "a program that writes what it should")
    with open(os.path.join(made.kit, "eaten")) as eaten:
        expect(eaten.read(), "recorded\n", "the program is tried on its recorded input")
    made.proofs()
    bare = dict(made.environment, PATH="/usr/bin:/bin")
    expect(made.run("prog", data=b"again\n", env=bare), (0, f"again\n0 \n{made.room}\n", []), "no prover on the path, none needed")
    expect(made.proofs(), 0, "no proof where nothing changed")


def sources(made):
    def touch(path):
        return lambda: write(made.at(path), "")

    def older():
        touch("crates/low/src/lib.rt")()
        os.utime(made.at("crates/low/src/lib.rt"), (1, 1))

    made.changed(lambda: None, 0, "nothing")
    made.changed(touch("crates/low/specs/Low.antt"), 1, "a definition of the lowest crate")
    made.changed(touch("crates/mid/proofs/More.antt"), 1, "a new proof")
    made.changed(lambda: os.remove(made.at("crates/mid/proofs/More.antt")), 1, "a proof taken away")
    made.changed(older, 1, "a source that carries an older date")
    made.changed(touch("crates/apart/src/lib.rt"), 0, "a crate that is not beneath")
    made.changed(touch("crates/low/must-fail/one.edit"), 0, "an edit that must fail")
    made.changed(lambda: write(made.at("KIT"), VERSION + "\n"), 1, "another kit's version")
    made.changed(lambda: os.utime(made.at("crates.txt")), 1, "crates.txt")
    made.changed(lambda: os.remove(made.at("target/bin/prog")), 1, "the program gone, its stamp there")
    made.changed(lambda: os.remove(made.at("target/stamp/prog")), 1, "the stamp gone")
    made.changed(lambda: shutil.rmtree(made.at("target")), 1, "all of target gone")


def meanwhile(made):
    """A source that changes while its proof goes on is proved again."""
    first = made.proving("1")
    write(made.at("crates/low/src/lib.rt"), "2")
    first.communicate(b"", timeout=20)
    write(os.path.join(made.kit, "seconds"), "0")
    made.proofs()
    made.run("prog")
    expect(made.proofs(), 1, "a source changed during its proof")


def two(made):
    first = made.proving("2")
    second = made.start("prog")
    out = [p.communicate(b"x\n", timeout=20) for p in (first, second)]
    write(os.path.join(made.kit, "seconds"), "0")
    expect([p.returncode for p in (first, second)], [0, 0], "two at a time")
    expect([o.decode().split("\n")[0] for o, _ in out], ["x", "x"], "two at a time")
    expect(made.proofs(), 1, "two at a time prove once")
    said = out[1][1].decode().splitlines()
    assert len(said) == 1 and "waiting" in said[0], said


def kits(made):
    write(os.path.join(made.kit, "KIT-ID"), "another-kit logic 2\n")
    expect(made.run("prog")[0], 0, "another kit, where nothing has to be built")
    write(made.at("crates/low/src/lib.rt"), "")
    status, out, said = made.run("prog")
    assert (status, out, len(said)) == (1, "", 1) and VERSION in said[0] and "another-kit logic 2" in said[0], said
    expect(made.proofs(), 0, "another kit proves nothing")
    write(os.path.join(made.kit, "KIT-ID"), "another-kit logic 1\n")
    expect(made.run("prog")[0], 0, "another kit with the same logic")
    expect(made.proofs(), 1, "another kit with the same logic proves")
    write(made.at("crates/low/src/lib.rt"), "")
    write(os.path.join(made.kit, "KIT-ID"), VERSION + "\n")
    status, out, said = made.run("prog", env=dict(made.environment, PATH="/usr/bin:/bin"))
    assert (status, out, len(said)) == (1, "", 1) and "no rt" in said[0] and VERSION in said[0], said
    write(os.path.join(made.kit, "refuses"), "")
    status, out, said = made.run("prog")
    assert (status, out) == (1, "") and "run: rt run in crates/prog ended with 1; the last that it said (target/run.log has all):" in said and "the goal that is open" in said, said
    os.remove(os.path.join(made.kit, "refuses"))
    expect(made.run("prog")[0], 0, "proved after a refusal")
    made.proofs()


def statuses(made):
    for text, status, words in (("echo 0 >&3", 0, None), ("echo 1 >&3", 1, None), ("printf 0 >&3", 0, None), (":", 1, "wrote none"), ("echo 2 >&3", 1, "neither"), ("echo >&3", 1, ""),
                                ("echo 00 >&3", 1, "neither"), ("echo 0 >&3\necho 0 >&3", 1, "neither"), ("echo 0 >&3\nexit 5", 1, "ended with 5"), ("echo 0 >&3\nkill -SEGV $$", 1, "ended with 139"),
                                ("exit 1", 1, "ended with 1"), ("exec 3>&-", 1, "wrote none")):
        made.program(text + "\n")
        got, out, said = made.run("prog")
        expect((got, out), (status, ""), text)
        assert (said == []) if words is None else (len(said) == 1 and said[0].startswith("prog: no status") and words in said[0]), (text, said)
    made.program("while :; do echo answer; done")
    done = made.start("prog")
    done.stdout.readline()
    done.stdout.close()
    expect(done.wait(20), 1, "nobody reads")
    assert "nobody reads" in done.stderr.read().decode()


def descriptors(made):
    """What is closed stays closed, a folder is handed on, and nothing waits."""
    made.program('cat || echo "no input" >&2\necho answer || { echo "no output" >&2; echo 1 >&3; exit 0; }\necho 0 >&3\n')
    run = f"'{made.at('run')}' prog"
    for line, status, out, words in ((f"{run} <&-", 0, "answer\n", "no input"), (f"{run} < /", 0, "answer\n", "no input"), (f"{run} < /dev/null >&-", 1, "", "no output"), (f"{run} <&- >&-", 1, "", "no output"),
                                     (f"{run} < /dev/null > /dev/full", 1, "", "no output"), (f"{run} < /dev/null 2>&-", 0, "answer\n", ""), (f"{run} <&- >&- 2>&-", 1, "", ""), (f"{run} < /dev/null 3>&1", 0, "answer\n", "")):
        done = subprocess.run(["bash", "-c", line], env=made.environment, capture_output=True, timeout=20, check=False)
        expect((done.returncode, done.stdout.decode()), (status, out), line)
        assert words in done.stderr.decode(), (line, done.stderr)


def alive(path):
    with open(path) as file:
        pid = int(file.read())
    try:
        with open(f"/proc/{pid}/stat") as stat:
            return stat.read().split()[2] != "Z"
    except FileNotFoundError:
        return False


def soon(fact, what):
    for _ in range(1000):
        if fact():
            return
        time.sleep(0.02)
    raise AssertionError(what)


def signals(made):
    """An interrupt ends the program, or the prover, with ./run; so does the key at a terminal."""
    mark = os.path.join(made.room, "mark")
    made.program(f"echo $$ > {mark}\nexec sleep 60\n")
    for number in (signal.SIGINT, signal.SIGTERM, signal.SIGHUP):
        interrupted(made, number, mark, "a program")
    at_terminal(made, mark)
    prover = os.path.join(made.kit, "prover")
    write(os.path.join(made.kit, "seconds"), "60")
    write(made.at("crates/low/src/lib.rt"), "")
    for number in (signal.SIGINT, signal.SIGTERM, signal.SIGHUP):
        interrupted(made, number, prover, "a proof")
    at_terminal(made, prover)
    write(os.path.join(made.kit, "seconds"), "0")
    made.program(ANSWERS)
    expect(made.run("prog", data=b"x\n")[1].split("\n")[0], "x", "after interrupts")


def interrupted(made, number, path, what):
    if os.path.exists(path):
        os.remove(path)
    done = made.start("prog", preexec_fn=lambda: signal.signal(number, signal.SIG_DFL))
    soon(lambda: os.path.exists(path) and os.path.getsize(path), f"{what} has not begun")
    time.sleep(0.1)
    done.send_signal(number)
    done.communicate(timeout=20)
    expect(done.returncode, -number, f"{what}, {number}")
    soon(lambda: not alive(path), f"{what} goes on after {number}")


def typed(made):
    """What is typed at a terminal reaches the program."""
    made.program("read -r line\necho \"got $line\"\necho 0 >&3\n")
    pid, terminal = pty.fork()
    if pid == 0:
        os.execve(made.at("run"), ["run", "prog"], made.environment)
    os.write(terminal, b"a line\n")
    shown = b""
    while b"got a line" not in shown:
        shown += os.read(terminal, 1000)
    expect(os.waitstatus_to_exitcode(os.waitpid(pid, 0)[1]), 0, "typed")
    os.close(terminal)


def at_terminal(made, path):
    os.remove(path)
    pid, terminal = pty.fork()
    if pid == 0:
        signal.signal(signal.SIGINT, signal.SIG_DFL)
        os.chdir(made.room)
        os.execve(made.at("run"), ["run", "prog"], made.environment)
    soon(lambda: os.path.exists(path) and os.path.getsize(path), "nothing has begun at a terminal")
    time.sleep(0.1)
    os.write(terminal, b"\x03")
    soon(lambda: os.waitpid(pid, os.WNOHANG)[0] == pid, "./run goes on after the key")
    soon(lambda: not alive(path), "what ./run began goes on after the key")
    os.close(terminal)


def emulated():
    """Descriptor 3 passes the kit's loader and, on another processor, its emulator."""
    assert os.path.exists(os.path.join(TOP, "target/tests/status")), "target/tests/status is not there: kit_cc target/tests/status tools/run/status.c"
    for status in ("0", "1"):
        line = f'. tools/host/kit.sh; echo asked | tools/run/status.sh "${{kit_command[@]}}" target/tests/status {status}'
        done = subprocess.run(["bash", "-c", line], cwd=TOP, capture_output=True, timeout=60, check=False)
        expect((done.returncode, done.stdout, done.stderr), (int(status), b"asked\n", b""), f"descriptor 3 of a program for x86-64, {status}")


def real():
    """The frame program itself: lost output and input that cannot be read are told in one line, and ./run ends with 1."""
    frame = f"printf '{FRAME.decode().strip()}\\n'"
    done = subprocess.run(["bash", "-c", f"{frame} | ./run"], cwd=TOP, capture_output=True, timeout=60, check=False)
    expect((done.returncode, done.stderr), (0, b""), "a frame")
    assert done.stdout.startswith(b"0000000010") and len(done.stdout) == 83, done.stdout
    for line in (f"{frame} | ./run > /dev/full", f"{frame} | ./run >&-", "./run < /", "./run <&-", f"yes {FRAME.decode().strip()} | head -n 5000 | ./run > /dev/full"):
        done = subprocess.run(["bash", "-c", f"set -o pipefail; {line}"], cwd=TOP, capture_output=True, timeout=60, check=False)
        expect((done.returncode, done.stdout), (1, b""), line)
        expect(done.stderr.count(b"\n"), 1, f"lines on standard error of {line}")
        assert b"no status" not in done.stderr, (line, done.stderr)


def main():
    room = os.path.realpath(tempfile.mkdtemp())
    try:
        made = Made(room)
        for part in (words, builds, sources, meanwhile, two, kits, statuses, descriptors, typed, signals):
            part(made)
    finally:
        shutil.rmtree(room)
    emulated()
    if REAL:
        real()
    print(f"tools/run: ./run builds when it has to, alone, and passes words, bytes, signals and status{'; lost output is told' if REAL else ''}")


if __name__ == "__main__":
    sys.exit(main())
