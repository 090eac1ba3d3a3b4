#!/usr/bin/env bash
# make.sh [FOLDER]: builds the oracle from the Rust text in FOLDER (the one that holds src/amos); without one, from $LICHENOAR_RUST_TEXT, or from
# ../shared/docs/src beside the repository. Ends with 3, and a line that says so, where there is no text. tools/host/archive.sh must have run.
set -eu
cd "$(dirname "$0")"
text=${1:-${LICHENOAR_RUST_TEXT:-../../shared/docs/src}}
if [ ! -f "$text/src/amos/mod.rs" ]; then
    echo "oracle: no Rust text in $text"
    exit 3
fi
[ -f ../target/host/libcapi.a ] || { echo "oracle: target/host/libcapi.a is not built (tools/host/archive.sh)"; exit 1; }
python3 generate.py "$text"
features=
for entry in log_gamma i k; do
    if grep -q "fn lichenoar_$entry(" ../crates/capi/src/lib.rt; then features="$features,$entry"; fi
done
cargo build --release --offline --quiet -p oracle --features "${features#,}"
