#!/usr/bin/env bash
# run.sh [COUNT [SEED]]: holds target/bin/morning, and lichenoar_page_line and lichenoar_page_join of libcapi.a, to counts by other roads. The program to
# count.py and plain.c, on COUNT lines drawn by draw.py (20,000 unless told; the seed is drawn too) and on the inputs of malformed.py, whole and in pieces:
# standard output, standard error and status byte for byte. The functions, for x86-64 and for this processor, to expected.h: on the same lines, and on pages of
# any bits, joined in every order and up to the limit. broken.py shows that both can fail; limit.py gives the program all the lines that a page takes.
# Needs target/bin/morning and both archives (rt ci, tools/host/archive.sh).
set -eu -o pipefail
cd "$(dirname "$0")/../.."
count=${1:-20000} seed=${2:-$((RANDOM * 32768 + RANDOM))}
. tools/host/kit.sh
began=$SECONDS
fail() { printf 'tools/morning/run.sh: %s\n' "$*"; exit 1; }
step() { printf 'run.sh: %s (%d s so far)\n' "$*" $((SECONDS - began)); }
for made in target/bin/morning target/staticlib/libcapi.a target/host/libcapi.a; do [ -f "$made" ] || fail "there is no $made"; done
program=("${kit_command[@]}" target/bin/morning)
work=$(mktemp -d)
trap 'rm -rf "$work"' EXIT
strict=(-std=c11 -O2 -Wall -Wextra -Wpedantic -Werror)
cc "${strict[@]}" -o "$work/plain" tools/morning/plain.c

step "the numbers of docs/refusals.txt, and a page of no lines"
listed=$(PYTHONPATH=tools/refusals python3 -c 'import listed; print(*(one.number for one in listed.read()))') || fail "docs/refusals.txt is not read"
counted=$("$work/plain" < /dev/null | sed -n 's/^refused \([0-9]*\) 0$/\1/p' | paste -sd ' ')
[ "$listed" = "$counted" ] || fail "docs/refusals.txt lists $listed; plain.c, count.py and expected.h have $counted"

step "$count drawn lines, seed $seed"
python3 tools/morning/draw.py "$count" "$seed" > "$work/drawn" 2> "$work/told" || { cat "$work/told"; fail "draw.py $count $seed"; }
head -n 1 "$work/told"
head -n $((count / 10)) "$work/drawn" > "$work/fewer"
python3 tools/morning/compare.py "$work/plain" "$work/drawn" -- "${program[@]}" || fail "draw.py $count $seed"
python3 tools/morning/compare.py --pieces "$work/plain" "$work/fewer" -- "${program[@]}" || fail "draw.py $count $seed, in pieces"

step "malformed lines, and inputs that end in every way"
mkdir "$work/malformed"
python3 tools/morning/malformed.py "$work/malformed"
python3 tools/morning/compare.py "$work/plain" "$work"/malformed/* -- "${program[@]}" || fail "malformed.py"
python3 tools/morning/compare.py --pieces "$work/plain" "$work"/malformed/{around,ending-[01]*} -- "${program[@]}" || fail "malformed.py, in pieces"

step "the C functions, for x86-64 and for this processor"
CPATH=bindings/c/kit kit_cc "$work/capi" tools/morning/capi.c || fail "capi.c"
cc "${strict[@]}" -I tools/host -o "$work/host_capi" tools/morning/capi.c target/host/libcapi.a -lm || fail "capi.c for this processor"
# fewer for x86-64, which the emulator runs elsewhere
kit_run "$work/capi" "$work/fewer" $((count / 40)) "$seed" || fail "capi.c"
"$work/host_capi" "$work/drawn" $((count / 5)) "$seed" || fail "capi.c for this processor"
step "all as count.py, plain.c and expected.h have it"
