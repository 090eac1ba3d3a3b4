# Sourced from the repository's root by the scripts that build or run: where the Rattle kit is, whether it is the one that the file KIT names, and how a C test is
# built against libcapi.a and run. The archive is for x86-64; on another processor the kit's emulator runs the test. The kit's own compiler and C library are used,
# so nothing is installed.
kit_machine=$(uname -m)
kit=${RATTLE_HOME:-}
if [ -z "$kit" ] && kit=$(command -v rt); then
    kit=$(readlink -f "$kit")
    kit=${kit%/*/*}
fi
kit_tools=$kit/toolchain
kit_link=$kit/bin/rattle-link
# a kit for several processors has what is one processor's own below on/
if [ -d "$kit/on/$kit_machine" ]; then
    kit_tools=$kit/on/$kit_machine/toolchain
    kit_link=$kit/on/$kit_machine/bin/rattle-link
fi

# kit_as_pinned: whether rt is of the kit that the file KIT names, or of another release with the same logic; where the two versions differ, prints both
kit_as_pinned() {
    local pinned here
    read -r pinned 2> /dev/null < KIT || { echo 'the file KIT is missing'; return 1; }
    here=$(rt version 2>&1) || here="one that cannot say its version ($here)"
    [ "$here" = "$pinned" ] && return
    printf 'the kit here is %s; the file KIT names %s, with which everything is proved' "$here" "$pinned"
    case $here in *' logic '*) [ "${here##* logic }" = "${pinned##* logic }" ] && { printf ': the logic is the same\n'; return; } ;; esac
    printf '\n'
    return 1
}

# kit_cc PROGRAM SOURCE: compiles one C file for x86-64, with the declarations of tools/host/libc.h, and links it with libcapi.a
kit_cc() {
    "$kit_tools/bin/clang" --target=x86_64-unknown-linux-gnu --no-default-config -nostdinc -fno-builtin -fPIC -O2 -Wall -Wextra -Werror -I tools/host -c "$2" -o "$1.o" &&
        "$kit_link" --target x86_64-unknown-linux-gnu --toolchain "$kit_tools" -o "$1" "$1.o" target/staticlib/libcapi.a 2> "$1.link" || { cat "$1.link"; return 1; }
}

# kit_command: the words before a program of the kit, as `python3 tools/frames/malformed.py "${kit_command[@]}" target/bin/lichenoar` hands them on. Where there is
# no kit, an x86-64 machine's own loader runs the program, and any other machine cannot (kit_runs).
kit_emulator=$kit_tools/bin/qemu-x86_64
[ -x "$kit_emulator" ] || kit_emulator=
kit_command=()
[ -z "$kit" ] || kit_command=(${kit_emulator:+"$kit_emulator"} "$kit_tools/lib/ld-linux-x86-64.so.2" --library-path "$kit_tools/lib")
kit_runs() { [ -n "$kit" ] || [ "$kit_machine" = x86_64 ]; }

# kit_run PROGRAM WORDS..
kit_run() { "${kit_command[@]}" "$@"; }
