#!/usr/bin/env bash
# frames.sh: writes crates/lichenoar/stdin and stdout anew: 21,000 asking frames and malformed lines drawn by the oracle with the answer lines of the Rust text as
# docs/SCOPE.md completes it, behind the example of docs/SCOPE.md and one malformed line. The last line lacks its newline. rt ci runs the program on the one and holds what it writes to the
# other, so the comparison needs no Rust. make.sh must have run.
set -eu
cd "$(dirname "$0")"
pairs=$(mktemp)
trap 'rm -f "$pairs"' EXIT
target/release/oracle frames 21000 20261115 > "$pairs"
program=../crates/lichenoar
{
    printf '02000002000000000000000000000000000000000000000000000000\n01000001000000000000000000000000000000000000000000000000\n0200\n'
    cut -d ' ' -f 1 "$pairs"
} | head -c -1 > "$program/stdin"
{
    printf '0000000000000000003FF0000000000000000000000000000000000000000000000000000000000000\n040000000000000000\n090000000000000000\n'
    cut -d ' ' -f 2 "$pairs"
} > "$program/stdout"
wc -l "$program/stdin" "$program/stdout"
