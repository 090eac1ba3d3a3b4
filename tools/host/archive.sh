#!/usr/bin/env bash
# Writes target/staticlib/libcapi.a, for x86-64, and target/host/libcapi.a, for the processor of this machine, which Rust programs here can link; neither where both are newer
# than their sources. They are crate capi_c's archive, which exports crate capi's functions to C. On x86-64 the two are one. Elsewhere the second is the same LLVM module, compiled for this processor (tools/host/module.sh). ./check holds the two to the
# same grid and the same special values.
set -eu
cd "$(dirname "$0")/../.."
said_by=archive.sh
. tools/host/module.sh
made_by=(tools/host/archive.sh tools/host/module.sh)
made() { current target/staticlib/libcapi.a capi_c && current target/host/libcapi.a capi_c "${made_by[@]}"; }

made && exit 0
alone
made && exit 0
can_prove libcapi.a
: > target/dates/capi
mkdir -p target/staticlib
# behind an rt ci of ./check the crates beneath stand as it proved them
if ! left_by_ci capi_c || ! compiled capi_c target/staticlib/new.a "$kit_tools"; then
    crates_of capi_c
    say "proving and compiling capi_c, and what is new of the $((${#crates_found[@]} - 1)) crates beneath it: $first_time"
    proving capi_c lib
    cp crates/capi_c/out/libcapi_c.a target/staticlib/new.a
fi
mv target/staticlib/new.a target/staticlib/libcapi.a
if [ "$kit_machine" = x86_64 ]; then
    cp target/staticlib/libcapi.a target/host/libcapi.a
else
    keep_module
    compiled capi_c target/host/capi_c.a "$shadow" || { tail -n 20 target/run.log >&2; exit 1; }
    for_host target/host/capi.o
    rm -f target/host/libcapi.a
    "$kit_tools/bin/llvm-ar" rcs target/host/libcapi.a target/host/capi.o
fi
touch -r target/dates/capi target/staticlib/libcapi.a target/host/libcapi.a
