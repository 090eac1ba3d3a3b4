#!/usr/bin/env bash
# Writes target/objects/x86_64.s and, on another processor, target/objects/host.s: libcapi.a as assembly, for tools/objects/tables.py. The kit's compiler
# writes it from the module that the archive was made of, by the very words that made the object; that these words give that object again, byte for byte, is
# checked first, so that what is read is the archive's own code. After tools/host/archive.sh, with the crates beneath
# capi_c as that left them.
set -eu
cd "$(dirname "$0")/../.."
. tools/host/module.sh
rm -rf target/objects
mkdir -p target/objects

# as_archived NAME ARCHIVE WORDS..: the object again, compared with that in ARCHIVE; then its assembly, target/objects/NAME.s
as_archived() {
    local name=$1 archive=$2
    shift 2
    host_clang "$@" -c -o "target/objects/$name.o"
    "$kit_tools/bin/llvm-ar" p "$archive" > "target/objects/$name.archived"
    cmp "target/objects/$name.o" "target/objects/$name.archived" || { echo "objects: $archive is not made of the module at hand"; exit 1; }
    host_clang "$@" -S -o "target/objects/$name.s"
}

if [ "$(uname -m)" = x86_64 ]; then
    keep_module
    compiled capi_c target/objects/again.a "$shadow" || { tail -n 20 target/run.log; exit 1; }
fi
# the words that the kit's prover gave its compiler, but for what is to be made of which file
mapfile -t given < "$words"
made_with=()
for ((i = 0; i < ${#given[@]}; i++)); do
    case ${given[i]} in
    -c | *.bc | --sysroot=*) ;;
    -o) i=$((i + 1)) ;;
    *) made_with+=("${given[i]}") ;;
    esac
done
as_archived x86_64 target/staticlib/libcapi.a "${made_with[@]}" "$module"
if [ "$(uname -m)" != x86_64 ]; then
    as_archived host target/host/libcapi.a --target="$(uname -m)-unknown-linux-gnu" -ffp-contract=off -fPIC -O3 -ffunction-sections -x ir target/host/module.ll
fi
