#!/usr/bin/env bash
# program.sh [NAME]: writes target/host/NAME, a program (the frame program where none is named) for the processor of this machine, unless it is newer than its sources. On x86-64
# it is target/bin/NAME itself, or, where the C library here is older than the kit's and cannot start it, the object of that program linked with the one here. Elsewhere it is
# the same LLVM module, compiled for this processor (tools/host/module.sh) and linked with this machine's C library; its code for x86-64 must be that of the proved program,
# function by function (tools/host/same_code.py).
# Where something that it needs is missing, one line says what to run first, and the status is 1; it is 2 where there is no program NAME.
set -eu
cd "$(dirname "$0")/../.."
said_by=program.sh
name=${1:-lichenoar}
. tools/host/module.sh
made() { current "target/host/$name" "$name" tools/host/program.sh tools/host/module.sh; }

missing() {
    say "$1"
    exit "${2:-1}"
}

# named: whether there is a program of this name
named() {
    local programs=(crates/*/src/main.rt)
    programs=("${programs[@]#crates/}")
    [ -f "crates/$name/src/main.rt" ] || missing "there is no program $name; there are: ${programs[*]%/src/main.rt}" 2
}

# tools_here: whether what compiles and compares for another processor is on the path
tools_here() {
    local tool
    [ "$kit_machine" = x86_64 ] || for tool in gcc python3; do command -v "$tool" > /dev/null || missing "this machine has no $tool; install it first (Debian: apt-get install $tool)"; done
}

# proved_here: whether the kit's compiler and the object of the proved program are there
proved_here() {
    can_prove "$name"
    [ -x "$kit_tools/bin/clang" ] || missing "the kit in $kit has no compiler for $kit_machine ($kit_tools/bin/clang); first put rt of a whole kit on the path"
    [ -f "target/obj/$name.o" ] || missing "target/obj/$name.o, the object of the proved program, is missing; first run: rm -f target/stamp/$name && ./run $name < /dev/null"
}

named
made && exit 0
tools_here
date=target/dates/host-$name
: > "$date"
program_built "$name"
alone
if made; then exit 0; fi
if [ "$kit_machine" = x86_64 ]; then
    if "target/bin/$name" < /dev/null > target/host/log 2>&1; then
        cp "target/bin/$name" "target/host/$name"
    else
        command -v gcc > /dev/null || missing "the C library here cannot start target/bin/$name, and there is no gcc to link it again; install it first (Debian: apt-get install gcc)"
        [ -f "target/obj/$name.o" ] || missing "target/obj/$name.o, the object of the proved program, is missing; first run: rm -f target/stamp/$name && ./run $name < /dev/null"
        gcc -o "target/host/$name" "target/obj/$name.o" $(ls target/obj/lib*_c.a 2> /dev/null) -lm
    fi
else
    proved_here
    keep_module
    compiled "$name" "target/host/try.o" "$shadow" || { tail -n 20 target/run.log >&2; missing "the module of $name could not be made (target/run.log)"; }
    python3 tools/host/same_code.py "$object" "target/obj/$name.o" > target/host/log 2>&1 || missing "the module that was kept is not the proved program's: $(tail -n 1 target/host/log)"
    for_host "target/host/$name.o"
    gcc -o "target/host/$name" "target/host/$name.o" -lm
fi
touch -r "$date" "target/host/$name"
