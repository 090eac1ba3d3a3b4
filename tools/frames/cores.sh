#!/usr/bin/env bash
# cores.sh PROGRAM FRAMES [CORES]: answers a file of frames on several cores with split and xargs, in the order asked, onto standard output. Lines are independent, so the
# file is cut between lines into as many pieces as there are cores and each piece gets a process of its own. docs/MANY-CORES.md.
set -eu
program=$(realpath "$1")
frames=$(realpath "$2")
cores=${3:-$(nproc)}
work=$(mktemp -d)
trap 'rm -rf "$work"' EXIT
cd "$work"
split -n "l/$cores" -a 4 -d "$frames" asked.
ls asked.* | sed 's/asked/answered/' | paste -d ' ' <(ls asked.*) - | xargs -P "$cores" -L 1 sh -c '"$0" < "$1" > "$2"' "$program"
cat answered.*
