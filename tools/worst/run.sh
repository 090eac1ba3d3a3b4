#!/usr/bin/env bash
# run.sh [SECONDS [SEED]]: the longest calls of each class of orders: a search by the clock, then a climb by exact instruction counts, from what it found and from longest.txt.
# Writes target/worst/found.txt, and each class as it begins to standard error. Needs gcc, python3 and valgrind, and target/host/libcapi.a (tools/host/archive.sh). Half an hour with 40 seconds a class.
set -eu
cd "$(dirname "$0")/../.."
seconds=${1:-40}
seed=${2:-1}
mkdir -p target/worst
gcc -O2 -std=c11 -Wall -Wextra -o target/worst/search tools/worst/search.c target/host/libcapi.a -lm
: > target/worst/found.txt
while read -r kind v n; do
    echo "worst: $kind, v to $v, n to $n ($SECONDS s so far)" >&2
    nice target/worst/search "$kind" "$v" "$n" "$seconds" "$seed" > target/worst/calls.txt 2> target/worst/said.txt
    { echo "== $kind, v to $v, n to $n: $(cat target/worst/said.txt)"; nice python3 tools/worst/climb.py "$kind" target/worst/calls.txt "$v" "$n" "$seed"; } >> target/worst/found.txt
    seed=$((seed + 1))
done <<'CLASSES'
k 0 1
k 0 2
k 1 2
k 10 2
k 50 10
k 100 1
k 1000 1
k 1000 512
s 1 2
s 10 2
s 50 10
s 1000 1
s 1000 512
i 0 1
i 1 2
i 10 2
i 50 10
i 1000 1
i 1000 512
g 0 1
CLASSES
