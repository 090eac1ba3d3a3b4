#!/usr/bin/env bash
# run.sh [COUNT [SEED]]: holds target/bin/sweep, and lichenoar_sweep of libcapi.a, to reference.c, a second program by another road: COUNT requests drawn by
# draw.py (20,000 unless told; the seed is drawn too) and the malformed lines of malformed.py, whole and in pieces: standard output, standard error and status
# byte for byte; the frames of whole sweeps through the frame program; the same requests through the C function, for x86-64 and for this processor, in buffers
# of every size.
# Needs target/bin/sweep, target/bin/lichenoar and both archives (rt ci, tools/host/archive.sh).
set -eu -o pipefail
cd "$(dirname "$0")/../.."
count=${1:-20000} seed=${2:-$((RANDOM * 32768 + RANDOM))}
. tools/host/kit.sh
began=$SECONDS
fail() { printf 'tools/sweep/run.sh: %s\n' "$*"; exit 1; }
step() { printf 'run.sh: %s (%d s so far)\n' "$*" $((SECONDS - began)); }
for made in target/bin/sweep target/bin/lichenoar target/staticlib/libcapi.a target/host/libcapi.a; do [ -f "$made" ] || fail "there is no $made"; done
program=("${kit_command[@]}" target/bin/sweep)
work=$(mktemp -d)
trap 'rm -rf "$work"' EXIT
strict=(-std=c11 -O2 -ffp-contract=off -Wall -Wextra -Wpedantic -Werror)
cc "${strict[@]}" -o "$work/reference" tools/sweep/reference.c

step "$count drawn requests, seed $seed"
python3 tools/sweep/draw.py "$count" "$seed" > "$work/drawn" 2> "$work/told" || { cat "$work/told"; fail "draw.py $count $seed"; }
head -n 1 "$work/told"
python3 tools/sweep/compare.py "$work/reference" "$work/drawn" -- "${program[@]}" || fail "draw.py $count $seed"

step "malformed lines, and inputs that end in every way"
mkdir "$work/malformed"
python3 tools/sweep/malformed.py "$work/malformed"
python3 tools/sweep/compare.py "$work/reference" "$work"/malformed/* -- "${program[@]}" || fail "malformed.py"
python3 tools/sweep/compare.py --pieces "$work/reference" "$work"/malformed/{around,ending-0*} -- "${program[@]}" || fail "malformed.py, in pieces"

step "frames of whole sweeps through the frame program"
python3 tools/sweep/answered.py "${kit_command[@]}" || fail "answered.py"

step "the C function, for x86-64 and for this processor"
CPATH=bindings/c/kit kit_cc "$work/capi" tools/sweep/capi.c || fail "capi.c"
cc "${strict[@]}" -I tools/host -o "$work/host_capi" tools/sweep/capi.c target/host/libcapi.a -lm || fail "capi.c for this processor"
# fewer for x86-64, which the emulator runs elsewhere
head -n $((count / 4)) "$work/drawn" > "$work/fewer"
kit_run "$work/capi" "$work/fewer" $((count / 4)) "$seed" || fail "capi.c"
"$work/host_capi" "$work/drawn" $((5 * count)) "$seed" || fail "capi.c for this processor"
step "all as reference.c has it"
