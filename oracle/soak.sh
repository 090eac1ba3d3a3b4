#!/usr/bin/env bash
# soak.sh SECONDS [CALLS]: runs the oracle over all entry points, each round with a fresh seed, until the time is over or CALLS calls were compared. Ends at the first
# difference, with the call and the seed that gave it. Prints the totals by entry point, and on standard error how far it is. Not part of ./check; make.sh must have run.
set -u -o pipefail
cd "$(dirname "$0")" || exit 2
limit=${1:?usage: soak.sh SECONDS [CALLS]}
wanted=${2:-0}
[ -x target/release/oracle ] || { echo "soak: the oracle is not built (oracle/make.sh)"; exit 2; }
declare -A total=([log_gamma]=0 [i]=0 [k]=0 [limits]=0)
sum=0
rounds=0
log=$(mktemp) || exit 2
trap 'rm -f "$log"' EXIT
while [ "$SECONDS" -lt "$limit" ] && { [ "$wanted" -eq 0 ] || [ "$sum" -lt "$wanted" ]; }; do
    seed=$(od -An -N6 -tu8 /dev/urandom | tr -d ' ')
    for entry in log_gamma i k limits; do
        target/release/oracle "$entry" 2000000 "$seed" > "$log" || { echo "soak: $entry, seed $seed:"; cat "$log"; exit 1; }
        calls=$(sed -n 's/^[0-9]* calls, \([0-9]*\) compared with libcapi.a, none different;.*/\1/p' "$log")
        [ "${calls:-0}" -gt 0 ] || { echo "soak: not understood:"; cat "$log"; exit 1; }
        total[$entry]=$((total[$entry] + calls))
        sum=$((sum + calls))
    done
    rounds=$((rounds + 1))
    echo "soak: $rounds rounds, $sum calls, $SECONDS of $limit s" >&2
done
echo "soak: $sum calls compared in $SECONDS s, $rounds rounds, none different: log-gamma ${total[log_gamma]}, I ${total[i]}, K ${total[k]}, K and I beside their limits ${total[limits]}"
