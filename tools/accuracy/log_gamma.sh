#!/usr/bin/env bash
# log_gamma.sh [SEED]: measures log-gamma against mpmath, region by region, and writes its tables of docs/ACCURACY.md anew. Not part of ./check: a minute on one core. Wanted: the Rust
# text and the Fortran of Algorithm 644, where run.sh looks for them, python3 with mpmath, gcc, gfortran; not Arb.
set -eu -o pipefail
cd "$(dirname "$0")/../.."
fortran=${LICHENOAR_FORTRAN_TEXT:-../shared/docs/amos}
[ -f "$fortran/dgamln.f" ] || { echo "log_gamma: no Fortran of Algorithm 644 in $fortran" >&2; exit 1; }
work=$PWD/target/accuracy
mkdir -p "$work"
oracle/make.sh >&2
(cd oracle && cargo build --release --offline --quiet -p accuracy)
gfortran -O2 -ffp-contract=off -std=legacy -c "$fortran/dgamln.f" -o "$work/dgamln.o"
gcc -O2 -Wall -Wextra -ffp-contract=off tools/accuracy/log_gamma_644.c "$work/dgamln.o" -o "$work/log_gamma_644" -lm
oracle/target/release/accuracy log_gamma "${1:-644}" | "$work/log_gamma_644" > "$work/log_gamma"
python3 tools/accuracy/log_gamma.py "$work/log_gamma"
