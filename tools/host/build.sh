# Sourced from the repository's root by ./run, ./install and the scripts of this folder: whether something has to be proved and compiled, and doing it, one at a
# time in a repository. $said_by is the name before each line on standard error.
first_time='from nothing it takes a while'
say() { printf '%s: %s\n' "${said_by:-build}" "$*" >&2; }

# crates_of NAME: NAME and every crate beneath it by crates.txt, into the array crates_found; what the line of NAME itself lists, into crates_listed
crates_of() {
    local line name at=0
    local -A beneath=() seen=()
    while IFS= read -r line || [ -n "$line" ]; do
        line=${line%%#*}
        # behind a name may stand what kind of crate it is
        case $line in *:*) read -r name _ <<< "${line%%:*}" && beneath[$name]=${line#*:} ;; esac
    done < crates.txt
    crates_found=("$1") seen[$1]=1
    read -r -a crates_listed <<< "${beneath[$1]:-}"
    while [ "$at" -lt "${#crates_found[@]}" ]; do
        for name in ${beneath[${crates_found[at]}]:-}; do
            # a name that crates.txt does not list is a library of the kit
            if [ -z "${seen[$name]:-}" ] && [ -n "${beneath[$name]+listed}" ]; then crates_found+=("$name") && seen[$name]=1; fi
        done
        at=$((at + 1))
    done
}

# current FILE NAME MORE..: whether FILE is newer than every source of the crate NAME and of the crates beneath it, crates.txt, KIT, and the files MORE. A file
# counts by when it was last changed or put there, whatever date it carries; a folder too, but for a crate's own, in which rt makes and removes out/.
current() {
    local file=$1 newer
    [ -f "$file" ] || return 1
    crates_of "$2"
    shift 2
    newer=$(find crates.txt KIT "$@" "${crates_found[@]/#/crates/}" \( -name must-fail -o -name out \) -prune -o -type d ! -path 'crates/*/*' -o -cnewer "$file" -print -quit 2> /dev/null) && [ -z "$newer" ]
}

# program_current NAME: whether target/bin/NAME is there, was proved and run, and is current
program_current() { [ -x "target/bin/$1" ] && [ -f "target/stamp/$1" ] && current "target/bin/$1" "$1"; }

# alone: from here to apart, no other script builds in this repository. The lock is on the repository's folder, since target/ may be removed meanwhile.
alone() {
    command -v flock > /dev/null || { say "this machine has no flock (package util-linux)"; return 2; }
    exec 9< . || return 2
    flock -n 9 && return
    say "something else is being built in this repository: waiting for it to end"
    flock 9
}
apart() { exec 9<&-; }

# stop SIGNAL: ends the prover and what it started, then this script, by SIGNAL
stop() {
    trap - "$1"
    kill -TERM -- "-$prover" 2> /dev/null
    say "stopped; what was proved so far is kept"
    kill -s "$1" $$
}

# proving NAME WORDS..: runs `rt WORDS` in the folder of the crate NAME, which proves it and what is new of the crates beneath it, and says each crate as it is proved.
# Its input is crates/NAME/stdin, where there is one; target/run.log has all that rt prints, target/run.out what a program that it runs writes. rt gets a session of its own,
# because what a shell starts in its background does not hear an interrupt.
proving() {
    local name=$1 line signal crate=$1 began=$SECONDS status=0 wanted=0 input=/dev/null written=/dev/fd/3
    shift
    [ ! -f "crates/$name/stdin" ] || input=crates/$name/stdin
    if [ "$1" = run ]; then
        written=target/run.out
        # the status that the program is to end with
        [ ! -f "crates/$name/status" ] || read -r wanted < "crates/$name/status"
    fi
    exec 7< <(exec 3>&1 < "$input" > "$written" && cd "crates/$name" && exec setsid rt "$@" 2>&3 3>&-) 8> target/run.log
    prover=$!
    # shellcheck disable=SC2064
    for signal in INT TERM HUP; do trap "stop $signal" "$signal"; done
    while IFS= read -r line <&7; do
        printf '%s\n' "$line" >&8
        case $line in
        'rt: chose --jobs '*' for '*) crate=${line##* for } began=$SECONDS ;;
        'logic=proved '*) say "$crate proved ($((SECONDS - began)) s)" ;;
        'rt: running '* | 'rt: '*': begins with what a check kept in '*) ;;
        'rt: '*) say "${line#rt: }" ;;
        esac
    done
    wait "$prover" || status=$?
    trap - INT TERM HUP
    exec 7<&- 8>&-
    [ "$status" -eq "$wanted" ] && return
    say "rt $* in crates/$name ended with $status; the last that it said (target/run.log has all):"
    tail -n 20 target/run.log >&2
    return 1
}

# compiled NAME FILE TOOLCHAIN: what `rt run` and `rt lib` do last, as rt does it: the crate NAME, a program or a static library, proved over the libraries beneath it as they
# stand in out/, and compiled into FILE, an object or an archive, with the compiler of that toolchain
compiled() {
    local name=$1 file=$PWD/$2 root=src/main.rt kind=() words=() crate
    crates_of "$name"
    # a program is what is built where nothing else is said
    [ -f "crates/$name/$root" ] || root=src/lib.rt kind=(--crate-type staticlib)
    for crate in std "${crates_listed[@]}"; do
        if [ -f "crates/$crate/src/lib.rt" ]; then words+=(--extern "$crate=../$crate/out/rlib/$crate.rlib"); else words+=(--extern "$crate=$kit/rlibs/$crate.rlib"); fi
    done
    for crate in "${crates_found[@]:1}"; do words+=(-L "dependency=../$crate/out/rlib"); done
    mkdir -p "${file%/*}" || return
    (cd "crates/$name" && "$kit/bin/rattle" build "${kind[@]}" --crate-name "$name" "$root" -L "dependency=$kit/rlibs" "${words[@]}" \
        --antt-project "$kit/rattle/logic/antt-project.json" --logic-built "$kit/logic_built" --jobs 2 --links "$name=" --toolchain "$3" --backend llvm -o "$file") > target/run.log 2>&1 && [ -s "$file" ]
}

# left_by_ci NAME: whether the libraries beneath NAME stand in out/ as the last `rt ci` of ./check proved them, and nothing has changed since. rt itself proves them again.
left_by_ci() {
    local crate
    current target/stamp/ci "$1" || return
    for crate in "${crates_found[@]:1}"; do
        [ -f "crates/$crate/out/rlib/$crate.rlib/format" ] && [ ! -f "crates/$crate/out/rlib/stamp" ] || return
    done
}

# can_prove NAME: whether there is an rt, of the kit that KIT names
can_prove() {
    local wrong tool
    for tool in rt setsid; do
        command -v "$tool" > /dev/null && continue
        say "$1 has to be proved and compiled, and this machine has no $tool$([ "$tool" = setsid ] || printf ' (the Rattle kit %s; README.md says where it comes from)' "$(cat KIT)")"
        return 1
    done
    wrong=$(kit_as_pinned) && return
    say "$1 has to be proved and compiled, and $wrong. To try this kit all the same, write its version into KIT"
    return 1
}

# taken NAME DATE: the program that rt left in crates/NAME/out becomes target/bin/NAME, with the date of the file DATE. A program that runs meanwhile keeps its old file.
taken() {
    local out=crates/$1/out/$1
    mkdir -p target/bin target/obj target/stamp && cp "$out" "target/bin/$1.new" && touch -r "$2" "target/bin/$1.new" && mv "target/bin/$1.new" "target/bin/$1" || return
    # there is no object where rt took the program from an earlier run; the archives are what else a program is linked of
    if [ -f "$out.o" ]; then cp "$out.o" "$kit"/c/lib*_c.a target/obj || return; else rm -f "target/obj/$1.o"; fi
    : > "target/stamp/$1"
}

# prove_program NAME: target/bin/NAME, proved and run. It gets the date when the work began, so that a source changed meanwhile is newer.
prove_program() {
    can_prove "$1" || return
    mkdir -p target/dates || return
    : > "target/dates/$1"
    crates_of "$1"
    say "proving and compiling what is new of $1 and of the $((${#crates_found[@]} - 1)) crates beneath it: $first_time"
    proving "$1" run || return
    if [ -f "crates/$1/stdout" ] && ! cmp -s target/run.out "crates/$1/stdout"; then
        say "$1 is proved, and does not write what crates/$1/stdout has (target/run.out has what it wrote)"
        return 1
    fi
    taken "$1" "target/dates/$1"
}

# program_built NAME: target/bin/NAME, current; proved only where it is not
program_built() {
    local status=0
    program_current "$1" && return
    alone || return
    program_current "$1" || prove_program "$1" || status=$?
    apart
    return "$status"
}
