# Sourced from the repository's root: the LLVM module that the kit's prover hands to the kit's compiler, kept, and compiled for the processor of this machine with
# no operations joined (no fused multiply-add): the same f64 steps, hence the same bits.
. tools/host/kit.sh
. tools/host/build.sh
shadow=
module=$PWD/target/host/module.bc
object=$PWD/target/host/module.o
words=$PWD/target/host/words
mkdir -p target/host target/dates

# keep_module: makes a toolchain of links, outside the repository, where rt would refuse them: the kit's, with a compiler that also keeps the module that it is handed to
# compile at -O3, the words that it is given for that, one a line, and the object that it makes of it. compiled NAME FILE "$shadow" uses it; it goes when the script ends.
keep_module() {
    local f
    rm -f "$module" "$object" "$words"
    shadow=$(mktemp -d) || exit 1
    trap 'rm -rf "$shadow"' EXIT
    mkdir -p "$shadow/bin"
    ln -s "$kit_tools/lib" "$shadow/lib"
    for f in "$kit_tools"/bin/*; do [ "$(basename "$f")" = clang ] || ln -s "$f" "$shadow/bin/$(basename "$f")"; done
    cat > "$shadow/bin/clang" <<WRAP
#!/bin/sh
"$kit_tools/bin/clang" "\$@" || exit
case " \$* " in *' -O3 '*) ;; *) exit 0 ;; esac
printf '%s\n' "\$@" > "$words"
for word in "\$@"; do
    case \$word in *.bc) cp "\$word" "$module" ;; esac
    [ "\${before:-}" != -o ] || cp "\$word" "$object"
    before=\$word
done
WRAP
    chmod +x "$shadow/bin/clang"
}

host_clang() { "$kit_tools/bin/clang" --no-default-config "$@" 2> target/host/said || { cat target/host/said >&2; exit 1; }; }

# for_host OBJECT: compiles the kept module for this processor
for_host() {
    local layout
    host_clang --target=x86_64-unknown-linux-gnu -x ir "$module" -S -emit-llvm -Xclang -disable-llvm-passes -o target/host/module.ll
    printf 'int main(void) { return 0; }' > target/host/empty.c
    host_clang --target="$kit_machine-unknown-linux-gnu" -S -emit-llvm target/host/empty.c -o target/host/empty.ll
    layout=$(grep '^target datalayout' target/host/empty.ll)
    sed -i -e "s/^target datalayout = .*/$layout/" -e "s/^target triple = .*/target triple = \"$kit_machine-unknown-linux-gnu\"/" -e 's/"target-cpu"="[^"]*"//; s/"target-features"="[^"]*"//; s/"tune-cpu"="[^"]*"//' target/host/module.ll
    # a record of a double and a number comes back in two integer registers on aarch64
    if [ "$kit_machine" = aarch64 ]; then sed -i 's/{ double, i64 }/{ i64, i64 }/g' target/host/module.ll; fi
    host_clang --target="$kit_machine-unknown-linux-gnu" -ffp-contract=off -fPIC -O3 -ffunction-sections -x ir target/host/module.ll -c -o "$1"
}
