#!/usr/bin/env bash
# run.sh [FORTRAN] < CALLS: builds tools/differences and runs the calls. FORTRAN is the folder with the six files of Algorithm 644 (zbknu.f and the others); without it that row is left out.
# oracle/make.sh must have run. tools/differences/calls.txt holds the calls of docs/DIFFERENCES.md.
set -eu
here=$(cd "$(dirname "$0")" && pwd)
built=$here/../../target/differences
mkdir -p "$built"
features=
if [ $# -gt 0 ]; then
    for file in dgamln zbknu zkscl zseri zshch zuchk; do
        # one line put in, which tells the start
        sed "$([ $file = zbknu ] && echo '293a\      CALL STARTS(K)')" "$1/$file.f" > "$built/$file.f"
        gfortran -O1 -ffp-contract=off -w -c -o "$built/$file.o" "$built/$file.f"
    done
    rm -f "$built/libalgorithm_644.a"
    ar rcs "$built/libalgorithm_644.a" "$built"/{dgamln,zbknu,zkscl,zseri,zshch,zuchk}.o
    features=fortran
fi
CARGO_TARGET_DIR=$built/cargo cargo build --release --offline --quiet --manifest-path "$here/Cargo.toml" --features "$features"
exec "$built/cargo/release/differences"
