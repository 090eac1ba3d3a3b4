#!/usr/bin/env bash
# machine.sh: what a time was measured on, a few lines for the top of a table: processor, clock, compilers, libraries, and the load at this moment. A tool that is not here is not named.
# bench, oracle's speed and tools/peers/run.sh print it before their tables.
cd "$(dirname "$0")/../.." || exit 2
mkdir -p target/host || exit 2

first() { command -v "$1" > /dev/null && "$@" 2> /dev/null | head -n 1; }
number() { grep -o '[0-9][0-9.]*[0-9]' | tail -n 1; }
named() { [ -z "$2" ] || printf '%s%s %s' "${comma-}" "$1" "$2"; [ -z "$2" ] || comma=', '; }

name=$(LC_ALL=C lscpu 2> /dev/null | sed -n 's/^Model name: *//p' | head -n 1)
[ -n "$name" ] || name=$(sed -n 's/^model name[^:]*: *//p; s/^CPU part[^:]*: *//p' /proc/cpuinfo 2> /dev/null | head -n 1)
told=$(cat /sys/devices/system/cpu/cpu0/cpufreq/cpuinfo_max_freq 2> /dev/null)
clock="not known"
if [ -n "$told" ]; then
    clock="$(awk "BEGIN { printf \"%.2f\", $told / 1e6 }") GHz at most, as the system tells it"
elif gcc -O2 -o target/host/clock tools/host/clock.c 2> /dev/null && measured=$(target/host/clock); then
    clock="$measured GHz, by a chain of additions"
fi
printf 'processor: %s, %s, %s at hand; clock: %s\n' "${name:-unknown}" "$(uname -m)" "$(nproc)" "$clock"

comma=
printf 'compilers: '
named gcc "$(first gcc -dumpfullversion)"
named gfortran "$(first gfortran -dumpfullversion)"
named rustc "$(first rustc --version | cut -d ' ' -f 2)"
named 'the kit' "$(first rt version)"
comma=
printf '\nlibraries: '
named glibc "$(first ldd --version | number)"
printf '\nload of the last minute: %s\n' "$(cut -d ' ' -f 1 /proc/loadavg)"
