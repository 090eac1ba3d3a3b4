#!/usr/bin/env bash
# Installs into a temporary folder, moves what was installed, and uses it with neither rt, nor the kit, nor this repository at hand: the programs on their recorded lines, the C
# example by pkg-config, a Rust crate over the binding and the binding's own examples by LICHENOAR_LIB_DIR, the manual page. Then what ./install refuses. The status of the
# installed program, and one version in all places, are looked at where tools/run/test.py has REAL = 1.
set -u
cd "$(dirname "$0")/../.." || exit 2
top=$PWD
fail() { printf 'tools/install/test.sh: %s\n' "$*"; exit 1; }
room=$(mktemp -d) || exit 2
trap 'rm -rf "$room"' EXIT
real=$(sed -n 's/^REAL = \([01]\)$/\1/p' tools/run/test.py)
[ -n "$real" ] || fail "tools/run/test.py has no line REAL = 0 or REAL = 1"
version=$(cat VERSION)
# bare WORDS..: with a path on which neither rt nor the kit is
bare() { (cd "$room" && env -i PATH=/usr/bin:/bin "$@"); }
! bare sh -c 'command -v rt' > /dev/null || fail "rt is on the path that is to have none"

for time in first second; do
    ./install "$room/the re" > "$room/listed" || fail "./install, the $time time"
    (cd "$room/the re" && find . -type f -printf '%m %P\n' | sort) > "$room/found"
    cat > "$room/wanted" << 'END'
644 include/lichenoar.h
644 lib/libcapi.a
644 lib/pkgconfig/lichenoar.pc
644 share/man/man1/lichenoar.1
755 bin/lichenoar
755 bin/lichenoar-morning
755 bin/lichenoar-sweep
755 lib/lichenoar/lichenoar
755 lib/lichenoar/morning
755 lib/lichenoar/status.sh
755 lib/lichenoar/sweep
END
    for file in LICENSE NOTICE; do [ ! -f "$file" ] || echo "644 share/doc/lichenoar/$file" >> "$room/wanted"; done
    sort -o "$room/wanted" "$room/wanted"
    diff "$room/wanted" "$room/found" || fail "other files than those named"
    diff <(sed 's/^[0-9]* //' "$room/wanted" | sort) <(sed "s|^$room/the re/||" "$room/listed" | sort) || fail "it lists other files than it writes"
done
mv "$room/the re" "$room/mo ved" || exit 2
there="$room/mo ved"
! grep -rlF -e "$top" -e "$room/the re" -e @VERSION@ "$there" || fail "an installed file names this repository or where it was installed"

# the program
bare "$there/bin/lichenoar" < crates/lichenoar/stdin > "$room/answers" 2> "$room/said"
status=$?
cmp "$room/answers" crates/lichenoar/stdout || fail "the installed program's answers"
ln -s "$there/bin/lichenoar" "$room/linked"
head -n 3 crates/lichenoar/stdin | bare "$room/linked" 2> /dev/null | cmp - <(head -n 3 crates/lichenoar/stdout) || fail "the installed program by a link"
[ "$(bare "$there/bin/lichenoar" --version)" = "lichenoar $version" ] || fail "lichenoar --version"
bare "$there/bin/lichenoar" --help | grep -q 'man lichenoar' || fail "lichenoar --help"
bare "$there/bin/lichenoar" --none > /dev/null 2>&1
[ $? -eq 2 ] || fail "a word that is not known"
if [ "$real" = 1 ]; then
    [ "$status" -eq 0 ] && [ ! -s "$room/said" ] || fail "the installed program ended with $status: $(head -n 1 "$room/said")"
    echo 010100023FD00000000000003FF8000000000000BFE8000000000000 | bare "$there/bin/lichenoar" > "$room/answers" 2> "$room/said"
    [ $? -eq 0 ] && [ ! -s "$room/said" ] || fail "a frame that is answered"
    bare "$there/bin/lichenoar" < /dev/null > "$room/answers" && [ ! -s "$room/answers" ] || fail "no input"
    for lost in '< "$1" > /dev/full' '< "$1" >&-' '< / > /dev/null' '<&- > /dev/null'; do
        bare bash -c "'$there/bin/lichenoar' $lost" bash "$top/crates/lichenoar/stdin" 2> "$room/said"
        [ $? -eq 1 ] && [ "$(wc -l < "$room/said")" -eq 1 ] || fail "lost input or output is not told: $lost"
    done
fi

# the sweep program: its replay has refused requests, so its status is 1; what it writes is answered
bare "$there/bin/lichenoar-sweep" < crates/sweep/stdin > "$room/frames" 2> "$room/said"
[ $? -eq 1 ] || fail "refused requests make no status 1"
cmp "$room/frames" crates/sweep/stdout || fail "the installed sweep program's frames"
grep -q '^request [0-9]*: refusal 13$' "$room/said" || fail "no refusal is told by the installed sweep program"
sed -n 2p crates/sweep/stdin | bare "$there/bin/lichenoar-sweep" > "$room/frames" 2> "$room/said" && [ ! -s "$room/said" ] || fail "a request that is accepted"
bare "$there/bin/lichenoar" < "$room/frames" | wc -l | cmp - <(wc -l < "$room/frames") || fail "the frames of a sweep are not answered"
[ "$(bare "$there/bin/lichenoar-sweep" --version)" = "lichenoar-sweep $version" ] || fail "lichenoar-sweep --version"
bare "$there/bin/lichenoar-sweep" --help | grep -q 'man lichenoar' || fail "lichenoar-sweep --help"
bare "$there/bin/lichenoar-sweep" --none > /dev/null 2>&1
[ $? -eq 2 ] || fail "a word that the sweep program does not know"

# the morning program: its recorded lines; the page of the frame program's own answers, a part of it counted here; no line, lost input and output
bare "$there/bin/lichenoar-morning" < crates/morning/stdin > "$room/page" 2> "$room/said" && [ ! -s "$room/said" ] || fail "the installed morning program's status"
cmp "$room/page" crates/morning/stdout || fail "the installed morning program's page"
bare "$there/bin/lichenoar" < crates/lichenoar/stdin | bare "$there/bin/lichenoar-morning" > "$room/page" || fail "the page of the recorded answers"
for part in "answered $(grep -c '^00' crates/lichenoar/stdout)" "refused 9 $(grep -c '^09' crates/lichenoar/stdout)" 'unreadable 0'; do
    grep -qx "$part" "$room/page" || fail "the page of the recorded answers has no line $part"
done
bare "$there/bin/lichenoar-morning" < /dev/null > "$room/page" && cmp "$room/page" <(sed 's/[0-9]*$/0/' crates/morning/stdout) || fail "the page of no line"
for lost in '< "$1" > /dev/full' '< "$1" >&-' '< / > /dev/null' '<&- > /dev/null'; do
    bare bash -c "'$there/bin/lichenoar-morning' $lost" bash "$top/crates/morning/stdin" 2> "$room/said"
    [ $? -eq 1 ] && [ "$(wc -l < "$room/said")" -eq 1 ] || fail "lost input or output is not told by the morning program: $lost"
done
[ "$(bare "$there/bin/lichenoar-morning" --version)" = "lichenoar-morning $version" ] || fail "lichenoar-morning --version"
bare "$there/bin/lichenoar-morning" --help | grep -q 'man lichenoar' || fail "lichenoar-morning --help"
bare "$there/bin/lichenoar-morning" --none > /dev/null 2>&1
[ $? -eq 2 ] || fail "a word that the morning program does not know"

# C
mkdir "$room/c" || exit 2
cp bindings/c/example.c "$room/c/example.c"
[ "$(bare env PKG_CONFIG_PATH="$there/lib/pkgconfig" pkg-config --modversion lichenoar)" = "$version" ] || fail "pkg-config --modversion"
words=$(bare env PKG_CONFIG_PATH="$there/lib/pkgconfig" pkg-config --cflags --libs lichenoar) || fail "pkg-config"
# the folder has a blank in its name, which pkg-config escapes for a shell
eval "bare gcc -std=c11 -Wall -Wextra -Wpedantic -Werror -o c/example c/example.c $words" || fail "the C example over the installed files"
gcc -std=c11 -I bindings/c -o "$room/c/beside" bindings/c/example.c target/host/libcapi.a -lm || fail "the C example over the repository's files"
bare c/example > "$room/c/printed" || fail "the C example's run"
"$room/c/beside" | cmp - "$room/c/printed" && grep -q 'refusal 4' "$room/c/printed" || fail "what the C example prints"

# Rust: cargo comes from where it is, and the binding's sources are copied away from the repository
mkdir -p "$room/rust/user/src" && cp -r bindings/rust "$room/rust/lichenoar" || exit 2
cat > "$room/rust/user/Cargo.toml" << 'END'
[package]
name = "user"
version = "0.0.0"
edition = "2021"
[dependencies]
lichenoar = { path = "../lichenoar" }
[workspace]
END
cat > "$room/rust/user/src/main.rs" << 'END'
// The frame of the README, asked through the binding, as an answer line.
use lichenoar::{k_into, Complex, Scaling};
fn main() {
    let mut out = [Complex::ZERO; 2];
    let a = k_into(Complex::new(1.5, -0.75), 0.25, Scaling::Scaled, &mut out).expect("an answer");
    print!("00{:04X}{:04X}{:04X}{:04X}", a.zeros, a.longest_sum, a.rungs, a.backward);
    for z in out {
        print!("{:016X}{:016X}", z.re.to_bits(), z.im.to_bits());
    }
    println!();
}
END
cargo_words=(cargo --quiet run --offline)
rust() { (cd "$room/rust/$1" && shift && CARGO_TARGET_DIR=$room/rust/target LICHENOAR_LIB_DIR=$there/lib "${cargo_words[@]}" "$@"); }
rust user > "$room/rust/printed" || fail "a Rust crate over the installed archive"
(cd "$room/rust/user" && CARGO_TARGET_DIR=$room/rust/third PKG_CONFIG_PATH=$there/lib/pkgconfig "${cargo_words[@]}") | cmp - "$room/rust/printed" || fail "a Rust crate over what pkg-config knows"
echo 010100023FD00000000000003FF8000000000000BFE8000000000000 | bare "$there/bin/lichenoar" 2> /dev/null | cmp - "$room/rust/printed" || fail "Rust and the program differ"
for example in bindings/rust/examples/*.rs; do
    [ ! -f "$example" ] || rust lichenoar --example "$(basename "$example" .rs)" > "$room/rust/printed" || fail "$example over the installed archive"
    [ ! -f "$example" ] || [ -s "$room/rust/printed" ] || fail "$example prints nothing"
done
(cd "$room/rust/user" && CARGO_TARGET_DIR=$room/rust/other LICHENOAR_LIB_DIR=$there/include "${cargo_words[@]}") > /dev/null 2>&1 && fail "a Rust crate was built with no archive"

# the manual page
python3 - "$there/share/man/man1/lichenoar.1" docs/refusals.txt "$version" << 'END' || fail "the manual page"
import sys
page = open(sys.argv[1], encoding="utf-8").read()
shown = page.replace("\\-", "-").replace("\\&", "")
assert sys.argv[3] in page.split("\n")[1]
for line in open(sys.argv[2], encoding="utf-8"):
    if line.strip() and not line.startswith("#"):
        number, _, givers, words, remedy = [part.strip() for part in line.split(" | ")]
        of_frames = not {"K", "I", "frame"}.isdisjoint(givers.split())
        assert (f".B {number}\n{words}.\n" in shown) == of_frames, number
        assert (f"\n{remedy[0].upper()}{remedy[1:]}.\n" in shown) == of_frames, number
END
if command -v man > /dev/null; then
    LC_ALL=C.UTF-8 MANWIDTH=80 man --warnings -E UTF-8 -l "$there/share/man/man1/lichenoar.1" > "$room/page" 2> "$room/said" || fail "man"
    [ ! -s "$room/said" ] || fail "man: $(head -n 1 "$room/said")"
    grep -q 'EXIT STATUS' "$room/page" || fail "the page as man shows it"
fi

# refused
expect() { # STATUS WORDS MESSAGE..
    local wanted=$1 words=$2
    shift 2
    "$@" > "$room/out" 2> "$room/said"
    [ $? -eq "$wanted" ] && grep -q -e "$words" "$room/said" && [ ! -s "$room/out" ] || fail "$*: $(cat "$room/out" "$room/said")"
}
expect 2 './install DIR' ./install
expect 2 './install DIR' ./install ''
expect 2 './install DIR' ./install --none
expect 2 './install DIR' ./install a b
touch "$room/file"
expect 1 "$room/file cannot be written to" ./install "$room/file"
expect 1 "$room/file/below cannot be written to" ./install "$room/file/below"
mkdir "$room/part" && cp -r install KIT VERSION tools "$room/part" && mkdir -p "$room/part/docs" && cp docs/lichenoar.1 docs/refusals.txt "$room/part/docs" || exit 2
expect 1 'bindings/c/lichenoar.h is missing' "$room/part/install" "$room/elsewhere"
mkdir "$room/few" && for tool in bash uname mkdir readlink; do ln -s "$(command -v "$tool")" "$room/few/$tool"; done
expect 1 'this machine has no python3' env PATH="$room/few" "$top/install" "$room/elsewhere"
[ ! -e "$room/elsewhere" ] || fail "a refused installation left something"

if [ "$real" = 1 ]; then
    grep -q "^#define LICHENOAR_VERSION \"$version\"$" bindings/c/lichenoar.h || fail "bindings/c/lichenoar.h is not of version $version"
    grep -q "^version = \"$version\"$" bindings/rust/Cargo.toml || fail "bindings/rust/Cargo.toml is not of version $version"
    grep -q "^## $version" docs/CHANGELOG.md || fail "docs/CHANGELOG.md has no $version"
fi
echo "tools/install: installed, moved, and used with no kit: the program's recorded lines, C, Rust, the manual page"
