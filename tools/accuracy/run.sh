#!/usr/bin/env bash
# run.sh [SEED]: measures K and I against Arb, region by region, and writes the tables of docs/ACCURACY.md and the pictures of docs/plots anew. Not part of ./check: some minutes on one core;
# how far it is stands on standard error.
# Wanted: the Rust text (oracle/make.sh says where), Arb or FLINT 3 with its headers, python3 with mpmath, gcc, gfortran. The Fortran of Algorithm 644 is looked for in $LICHENOAR_FORTRAN_TEXT, or in
# ../shared/docs/amos beside the repository.
set -eu -o pipefail
cd "$(dirname "$0")/../.."
seed=${1:-644}
fortran=${LICHENOAR_FORTRAN_TEXT:-../shared/docs/amos}
[ -f "$fortran/zbknu.f" ] || { echo "accuracy: no Fortran of Algorithm 644 in $fortran" >&2; exit 1; }
work=$PWD/target/accuracy
mkdir -p "$work" docs/plots
step() { printf 'accuracy: %s (%d s so far)\n' "$*" $SECONDS >&2; }

step "the programs"
oracle/make.sh >&2
(cd oracle && cargo build --release --offline --quiet -p accuracy)
gcc -O2 -Wall -Wextra tools/accuracy/truth.c -o "$work/truth" -lflint-arb -lflint -lm 2> "$work/log" || gcc -O2 -Wall -Wextra tools/accuracy/truth.c -o "$work/truth" -lflint -lm
for routine in zbknu zkscl zseri dgamln zuchk zshch; do
    gfortran -O2 -ffp-contract=off -std=legacy -c "$fortran/$routine.f" -o "$work/$routine.o"
done
gcc -O2 -Wall -Wextra -ffp-contract=off tools/accuracy/algorithm_644.c "$work"/{zbknu,zkscl,zseri,dgamln,zuchk,zshch}.o -o "$work/algorithm_644" -lm

step "the calls, region by region"
oracle/target/release/accuracy "$seed" 2>&1 > "$work/calls" | tee "$work/mirrored" >&2
step "Arb beside mpmath"
python3 tools/accuracy/crosscheck.py "$work/calls" "$work/truth"
step "the errors of $(wc -l < "$work/calls") calls"
"$work/algorithm_644" < "$work/calls" | "$work/truth" > "$work/errors"
grep '^far_' "$work/calls" | "$work/algorithm_644" | "$work/truth" --values > "$work/far"
step "tables and pictures"
python3 tools/accuracy/tables.py "$work/errors" "$work/far" | tee "$work/refusals"
