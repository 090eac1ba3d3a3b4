#!/usr/bin/env bash
# run.sh [COUNT [SEED [STEP]]]: holds lichenoar_sqrt to the square root instruction of this processor (x86-64 or aarch64), bit for bit: the families of against.c,
# the last of COUNT drawn arguments (100,000,000 unless told, and seed 1). Every STEP-th number of 26 digits is squared: all, unless told. Under a minute; the status is 1 if a
# root differs. Needs target/host/libcapi.a (tools/host/archive.sh). ./check has a short one. broken.sh shows that it can fail.
set -eu
cd "$(dirname "$0")/../.."
count=${1:-100000000} seed=${2:-1} step=${3:-1}
[ -f target/host/libcapi.a ] || { echo "roots: target/host/libcapi.a is not built (tools/host/archive.sh)" >&2; exit 1; }
work=$(mktemp -d)
trap 'rm -rf "$work"' EXIT
cc -std=c11 -O2 -ffp-contract=off -Wall -Wextra -Wpedantic -Werror -DSTEP="$step" -o "$work/against" tools/roots/against.c target/host/libcapi.a -lm
processor=$(LC_ALL=C lscpu 2> /dev/null | sed -n 's/^Model name: *//p' | head -n 1)
"$work/against" "$count" "$seed" "${processor:-an unknown processor}, $(uname -m)"
