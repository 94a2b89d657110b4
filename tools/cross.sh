#!/usr/bin/env bash
# Builds the proved library for another processor, from the module that rattle makes of it (LLVM bitcode of the proved MIR):
#     tools/cross.sh aarch64 [FOLDER]     libbukzarn.a for 64-bit Arm Linux, to link with aarch64-linux-gnu-gcc
#     tools/cross.sh wasm32 [FOLDER]      bukzarn.wasm, a module without imports (needs wasm-ld: Debian's lld)
# It stands in FOLDER, else in target/aarch64 or target/wasm32. The crates that the library stands on must be proved: run
# `rt lib` in crates/bukzarn first. The module stays in target/cross, and is made again only if something under it is newer.
# docs/STATIONS.md says what is trusted then, and how each is used.
set -euo pipefail
cd "$(dirname "$0")/.."

usage() {
    sed -n '2,7s/^# \{0,1\}//p' tools/cross.sh >&2
    exit 2
}

fail() {
    echo "cross.sh: $1" >&2
    exit 1
}

# What is missing, with the place to get it.
want() {
    command -v "$1" >/dev/null || fail "$1 is not there: $2"
}

[ $# -ge 1 ] && [ $# -le 2 ] || usage
case $1 in
aarch64) triple=aarch64-unknown-linux-gnu ;;
wasm32) triple=wasm32-unknown-unknown && want wasm-ld "install lld" ;;
*) usage ;;
esac
folder=${2:-target/$1}
want rt "it comes with Rattle's kit"

kit=$(dirname "$(dirname "$(readlink -f "$(command -v rt)")")")
tmp=$(mktemp -d)
trap 'rm -rf "$tmp"' EXIT

# rattle compiles with the clang of the folder that --toolchain names. This one keeps the module, then compiles it as usual.
mkdir -p "$tmp/bin"
ln -s "$kit/toolchain/lib" "$tmp/lib"
ln -s "$kit/toolchain/bin/ld.lld" "$kit/toolchain/bin/llvm-ar" "$tmp/bin/"
cat >"$tmp/bin/clang" <<CLANG
#!/bin/sh
for word in "\$@"; do case \$word in *.bc) cp "\$word" "$tmp/module.bc" ;; esac; done
exec "$kit/toolchain/bin/clang" "\$@"
CLANG
chmod +x "$tmp/bin/clang"

# The module of the library, from the proved crates in crates/NAME/out/rlib and what the check of crates/bukzarn kept.
module() {
    local words=(--crate-name bukzarn src/lib.rt --extern "std=$kit/rlibs/std.rlib" -L "dependency=$kit/rlibs") name place
    for name in $(sed -n 's/^bukzarn\b[^:]*://p' crates.txt); do
        place=$PWD/crates/$name/out/rlib/$name.rlib
        [ -d "$place" ] || fail "$name is not proved: run 'rt lib' in crates/bukzarn first"
        words+=(--extern "$name=$place")
    done
    for place in crates/*/out/rlib; do
        words+=(-L "dependency=$PWD/$place")
    done
    (cd crates/bukzarn && "$kit/bin/rattle" build "${words[@]}" --antt-project "$kit/rattle/logic/antt-project.json" \
        --logic-built "$kit/logic_built" --incremental out/incremental --toolchain "$tmp" --links bukzarn= \
        --crate-type staticlib -o "$tmp/own.a") >"$tmp/said" 2>&1 || fail "$(cat "$tmp/said")"
    [ -f "$tmp/module.bc" ] || fail "rattle compiled no module"
    mkdir -p target/cross
    mv "$tmp/module.bc" target/cross/bukzarn.bc
}

# Is the module there, and nothing newer that it follows from?
is_made() {
    local made=target/cross/bukzarn.bc
    [ -f $made ] && [ -z "$(find crates.txt crates/bukzarn/{src,specs,proofs} crates/*/out/rlib -newer $made -print -quit)" ]
}

# The module's functions name x86-64 as their processor, of which other code generators warn.
compile() {
    "$kit/toolchain/bin/clang" --target="$triple" -Wno-override-module --no-default-config -c -x ir target/cross/bukzarn.bc \
        -o "$1" -fPIC -O3 2>"$tmp/warned" || fail "$(cat "$tmp/warned")"
}

is_made || module
mkdir -p "$folder"
compile "$tmp/bukzarn.o"
# The stack of a module is part of its memory. bukzarn_need takes more than the 64 KiB that are usual; the stack comes first, so
# that past its end is no memory at all.
stack=262144
if [ "$1" = wasm32 ]; then
    exports=(run run_frames validate need fixed load strip)
    wasm-ld --no-entry "${exports[@]/#/--export=bukzarn_}" --export=__heap_base -z "stack-size=$stack" --stack-first \
        "$tmp/bukzarn.o" -o "$folder/bukzarn.wasm"
    echo "$folder/bukzarn.wasm"
else
    rm -f "$folder/libbukzarn.a"
    "$kit/toolchain/bin/llvm-ar" rcs "$folder/libbukzarn.a" "$tmp/bukzarn.o"
    echo "$folder/libbukzarn.a"
fi
