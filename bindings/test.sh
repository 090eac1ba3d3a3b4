#!/usr/bin/env bash
# Tests both bindings: the C header with the x86-64 archive (under the kit's emulator elsewhere) and with the archive for this processor, as C99, C11 and
# C++17; the Rust crate with the latter, in the repository and outside of it, and its feature num-complex where that crate is found: in Debian's package
# librust-num-complex-dev, or in the folder of crates that LICHENOAR_CRATES_DIR names.
# Needs target/staticlib/libcapi.a and target/host/libcapi.a (tools/host/archive.sh).
set -eu
cd "$(dirname "$0")/.."
. tools/host/kit.sh
mkdir -p target/tests
fail() { echo "bindings/test.sh: $*"; exit 1; }
strict=(-O2 -Wall -Wextra -Wpedantic -Werror)
for program in test example; do
    CPATH=bindings/c/kit kit_cc "target/tests/c_$program" "bindings/c/$program.c"
    gcc -std=c11 "${strict[@]}" -o "target/tests/host_c_$program" "bindings/c/$program.c" target/host/libcapi.a -lm
done
echo "C, x86-64:"
kit_run target/tests/c_test bindings/known.txt
echo "C, $(uname -m):"
target/tests/host_c_test bindings/known.txt
kit_run target/tests/c_example > target/tests/c_example.txt
target/tests/host_c_example | cmp - target/tests/c_example.txt
gcc -std=c99 "${strict[@]}" -o target/tests/host_c99_example bindings/c/example.c target/host/libcapi.a -lm
target/tests/host_c99_example | cmp - target/tests/c_example.txt
# another_layout COMPILER WORDS..: the header with a cell of a page less must not compile
another_layout() {
    if sed 's/longest\[20\]/longest[19]/' bindings/c/lichenoar.h | "$@" -fsyntax-only - 2> target/tests/layout; then fail "a page of another layout compiles: $*"; fi
    grep -q lichenoar_page_layout target/tests/layout || { cat target/tests/layout; fail "another layout of a page is not what stops $*"; }
}
another_layout gcc -std=c99 -x c
another_layout gcc -std=c11 -x c
if command -v g++ > /dev/null; then
    g++ -std=c++17 "${strict[@]}" -o target/tests/host_cpp_example -x c++ bindings/c/example.c -x none target/host/libcapi.a -lm
    target/tests/host_cpp_example | cmp - target/tests/c_example.txt
    another_layout g++ -std=c++17 -x c++
else
    echo "no g++ here: the header was not tried from C++"
fi
cat target/tests/c_example.txt

echo "Rust, $(uname -m):"
export CARGO_TARGET_DIR=$PWD/target/cargo
unset LICHENOAR_LIB_DIR PKG_CONFIG PKG_CONFIG_PATH PKG_CONFIG_LIBDIR
cargo test --offline --quiet --manifest-path bindings/rust/Cargo.toml
values=$PWD/target/tests/rust_example.txt
cargo run --offline --quiet --manifest-path bindings/rust/Cargo.toml --example values > "$values"
cat "$values"

echo "Rust, the archive found outside the repository:"
outside=$(mktemp -d)
trap 'rm -rf "$outside"' EXIT
mkdir -p "$outside/crate" "$outside/lib/pkgconfig" "$outside/none"
cp -r bindings/rust/{Cargo.toml,Cargo.lock,build.rs,src,examples} "$outside/crate"
cp target/host/libcapi.a "$outside/lib"
version=$(sed -n 's/^#define LICHENOAR_VERSION "\(.*\)"$/\1/p' bindings/c/lichenoar.h)
[ ! -f VERSION ] || [ "$(cat VERSION)" = "$version" ] || fail "VERSION is not that of the header, $version"
# described VERSION: writes the file that pkg-config reads
described() {
    printf 'libdir=${pcfiledir}/..\nName: lichenoar\nDescription: K, I and log-gamma\nVersion: %s\nLibs: -L${libdir} -lcapi -lm\n' "$1" \
        > "$outside/lib/pkgconfig/lichenoar.pc"
}
# example SETTINGS..: the example's build and run with these variables set, no archive but theirs being in reach
example() {
    env PKG_CONFIG_LIBDIR="$outside/none" "$@" \
        cargo run --offline --quiet --manifest-path "$outside/crate/Cargo.toml" --example values 2> "$outside/said"
}
# refused WORDS SETTINGS..: the build must stop with these words
refused() {
    local words=$1
    shift
    if example "$@" > "$outside/out"; then fail "the build did not stop: $*"; fi
    grep -q "$words" "$outside/said" || { cat "$outside/said"; fail "the build stopped, but not by: $words"; }
}
example LICHENOAR_LIB_DIR="$outside/lib" | cmp - "$values" || { cat "$outside/said"; fail "LICHENOAR_LIB_DIR"; }
refused "LICHENOAR_LIB_DIR is $outside/none, which holds no libcapi.a" LICHENOAR_LIB_DIR="$outside/none"
refused "there is no libcapi.a for $(uname -m)"
echo "LICHENOAR_LIB_DIR: as stated"
if command -v pkg-config > /dev/null; then
    described 0.1.9
    refused "there is no libcapi.a for $(uname -m)" PKG_CONFIG_PATH="$outside/lib/pkgconfig"
    described "$version"
    example PKG_CONFIG_PATH="$outside/lib/pkgconfig" | cmp - "$values" || { cat "$outside/said"; fail "pkg-config"; }
    echo "pkg-config: as stated"
else
    echo "no pkg-config here: not tried"
fi

# the folder of crates that holds num-complex, where there is one
crates=${LICHENOAR_CRATES_DIR:-$(dpkg -L librust-num-complex-dev 2> /dev/null | sed -n 's,/num-complex-[0-9.]*/Cargo.toml$,,p')}
if [ -n "$crates" ]; then
    echo "Rust, the feature num-complex:"
    cp -r bindings/rust/num-complex bindings/rust/README.md "$outside/crate"
    rm -f "$outside/crate/num-complex/Cargo.lock"
    # the lines that the page has for .cargo/config.toml; the folder is another where LICHENOAR_CRATES_DIR names it
    config=$outside/crate/.cargo/config.toml
    mkdir "$outside/crate/.cargo"
    sed -n '/^\[source\.crates-io\]$/,/^```$/{/^```$/d;p}' bindings/rust/README.md > "$config"
    [ -n "${LICHENOAR_CRATES_DIR:-}" ] || grep -qxF "directory = \"$crates\"" "$config" || fail "bindings/rust/README.md: Debian's folder is $crates"
    sed -i "s|^directory = .*|directory = \"$(realpath "$crates")\"|" "$config"
    featured() { (cd "$outside/crate/num-complex" && LICHENOAR_LIB_DIR=$outside/lib cargo test --offline --quiet "$@"); }
    featured --test conversions
    featured --doc complex.rs
else
    echo "no crate num-complex here: its feature was not tried"
fi
