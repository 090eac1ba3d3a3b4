#!/usr/bin/env bash
# run.sh [ROUNDS [RUNS]]: times of other libraries beside ours, on this machine, behind what that is: the Fortran of Algorithm 644 (looked for as tools/accuracy/run.sh does) and, where they are installed, Arb and SciPy.
# A cell has the least / the median / the largest of RUNS runs. Above the table: what the chain of a rung of K takes here, alone. tools/host/archive.sh must have run. Not part of ./check.
set -eu
cd "$(dirname "$0")/../.."
fortran=${LICHENOAR_FORTRAN_TEXT:-../shared/docs/amos}
rounds=${1:-300}
runs=${2:-7}
[ -f "$fortran/zbknu.f" ] || { echo "peers: no Fortran of Algorithm 644 in $fortran" >&2; exit 1; }
[ -f target/host/libcapi.a ] || { echo "peers: target/host/libcapi.a is not built (tools/host/archive.sh)" >&2; exit 1; }
work=$PWD/target/peers
mkdir -p "$work"
for routine in zbknu zkscl zseri dgamln zuchk zshch; do
    gfortran -O2 -ffp-contract=off -std=legacy -c "$fortran/$routine.f" -o "$work/$routine.o"
done
gcc -O2 -Wall -Wextra -ffp-contract=off tools/peers/peers.c "$work"/*.o target/host/libcapi.a -o "$work/peers" -lm
gcc -O2 -Wall -Wextra -ffp-contract=off -fno-tree-slp-vectorize tools/peers/chain.c -o "$work/chain"
tools/host/machine.sh
"$work/chain"
echo
"$work/peers" "$rounds" "$runs"
if gcc -O2 -Wall -Wextra tools/peers/arb.c -o "$work/arb" -lflint-arb -lflint -lm 2> "$work/log" || gcc -O2 -Wall -Wextra tools/peers/arb.c -o "$work/arb" -lflint -lm 2>> "$work/log"; then
    printf '\n%s, 64 bits\n| workload | ns a call |\n|---|---|\n' "$("$work/arb" version)"
    for of in "a KE 2" "b KE 10" "B K 10" "d I 1" "D I 10"; do
        # shellcheck disable=SC2086
        set -- $of
        echo "peers: Arb, $1" >&2
        "$work/peers" --inputs "$1" > "$work/inputs"
        for ((run = 0; run < runs; run++)); do "$work/arb" "$2" "$3" < "$work/inputs"; done | sort -n |
            awk -v name="$1" '{ t[NR] = $1 } END { printf "| %s | %d / %d / %d |\n", name, t[1], NR % 2 ? t[(NR + 1) / 2] : (t[NR / 2] + t[NR / 2 + 1]) / 2, t[NR] }'
    done
else
    echo "peers: no Arb"
fi
python=${PYTHON:-python3}
if "$python" -c 'import scipy' 2> "$work/log"; then "$python" tools/peers/times.py "$work/peers" "$runs"; else echo "peers: no SciPy for $python (PYTHON names another)"; fi
