#!/usr/bin/env bash
# forms.sh: the forms of a root by digits that were tried, timed on this machine behind what that is. The forms are compiled by the kit's compiler, at -O3 as the archive is. Not
# part of ./check.
set -eu
cd "$(dirname "$0")/../.."
. tools/host/kit.sh
work=$PWD/target/roots
mkdir -p "$work"
"$kit_tools/bin/clang" --no-default-config --target="$(uname -m)-unknown-linux-gnu" -O3 -Wall -Wextra -ffreestanding -c tools/roots/forms.c -o "$work/forms.o"
gcc -O2 -std=gnu11 -Wall -Wextra tools/roots/times.c "$work/forms.o" -o "$work/times" -lm
tools/host/machine.sh
echo
"$work/times"
