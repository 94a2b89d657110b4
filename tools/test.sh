#!/usr/bin/env bash
# Passes the tests of everything around the proved crates: the layout of all files, what keeps the house, the tools, the package
# for Python, the bench in the browser, the library for other processors, the Rust crate, the command bukzarn, the programs in C.
# With --all the gate comes first (.ci/run: every proof, every edit, every program), so that one command passes all tests.
# The library is built first (rt lib, in crates/bukzarn); to test another, name its folder in BUKZARN_LIBRARY. What needs
# programs or packages that are not installed is skipped, and a line says so.
#     tools/test.sh [--all]
set -uo pipefail
root=$(cd "$(dirname "${BASH_SOURCE[0]}")/.." && pwd)
cd "$root" || exit 1
out=$(mktemp -d)
trap 'rm -rf "$out"' EXIT
failed=0
# The crates of Rust. The last one measures beside another engine, and is built only where that engine is (bench/plain).
rust="bindings/rust cli bench bench/compare"

# Does something under a name, and shows what it said if it fails.
try() {
    local name=$1
    shift
    if "$@" >"$out/said" 2>&1; then
        echo "ok      $name"
    else
        echo "FAILED  $name"
        tail -n 40 "$out/said"
        failed=1
    fi
}

# The same of tests in Python, with a line for each that was skipped.
try_python() {
    local name=$1 python=$2
    shift 2
    try "$name" "$python" -m unittest -v "$@"
    sed -n "s/^\(test_[a-z0-9_]*\) .*skipped '\(.*\)'$/skipped \1: \2/p; s/^.* \.\.\. skipped '\(.*\)'$/skipped \1/p" "$out/said" | sort -u
}

# A Python that has a package: the first of those on this machine that does.
python_with() {
    local python
    for python in python3 /usr/bin/python3; do
        if "$python" -c "import $1" 2>/dev/null; then
            echo "$python"
            return
        fi
    done
    echo python3
}

# The archive, crates/bukzarn/out/libbukzarn.a.
library() {
    (cd crates/bukzarn && rt lib)
}

# The archive beside the shared library that Python loads, in a folder of their own.
shared() {
    mkdir "$out/library" && cp "$BUKZARN_LIBRARY/libbukzarn.a" "$out/library" &&
        python3 python/bukzarn/build.py "$out/library/libbukzarn.a" -o "$out/library/libbukzarn.so"
}

compiled() {
    gcc -std=c99 -Wall -Wextra -Wpedantic -Werror -O2 -Iinclude -o "$out/$1" "examples/c/$1.c" "$BUKZARN_LIBRARY/libbukzarn.a"
}

# The listing of every example.
watch_in_c() {
    compiled watch || return 1
    local name
    while read -r name _; do
        case $name in '' | '#'*) continue ;; esac
        "$out/watch" "examples/$name.img" | cmp - "examples/$name.txt" || return 1
    done <examples/LIST
}

# Every function once, on images whose needs are stored.
functions_in_c() {
    compiled functions || return 1
    local name
    for name in ground limits plain; do
        "$out/functions" "examples/$name.img" | cmp - "examples/$name.need" || return 1
    done
}

# A table of the recorded ascent, in which some frames are damaged: exit status 4.
table_by() {
    local status=0
    "$@" examples/ascent/watched.img examples/ascent/ascent.frames 12 >"$out/table" || status=$?
    cmp "$out/table" examples/ascent/watched.csv && [ $status -eq "$expected" ]
}

# A receiver writes the rows of a frame before it waits for the next one, and refuses another image than the one named.
live_by() {
    local image=examples/ascent/watched.img name
    name=$(sha256sum $image | cut -c 1-64)
    python3 tools/house/paused_pipe.py "$@" $image {} 12 "$name" || return 1
    "$@" examples/ascent/plain.img examples/ascent/ascent.frames 12 "$name" >"$out/none" && return 1
    [ ! -s "$out/none" ]
}

receiver_in_c() {
    compiled receiver && expected=4 table_by "$out/receiver" && live_by "$out/receiver"
}

receiver_in_rust() {
    local receiver=bindings/rust/target/release/examples/receiver
    cargo build --quiet --release --manifest-path bindings/rust/Cargo.toml --example receiver &&
        expected=0 table_by $receiver && live_by $receiver
}

cargo_in() {
    cargo "$2" --manifest-path "$1/Cargo.toml" "${@:3}"
}

# The programs in Rattle, where the pages and their tests run them: crates/NAME/out/NAME.
programs() {
    local main
    for main in crates/*/src/main.rt; do
        (cd "${main%/src/main.rt}" && rt run </dev/null) || return 1
    done
}

# The crates below a folder, in the layout that rt ci asks for; rattle stands beside rt.
laid_out_in_rattle() {
    local rattle
    rattle=$(dirname "$(readlink -f "$(command -v rt)")")/rattle
    find "$1/crates" -name out -prune -o \( -name '*.rt' -o -name '*.antt' \) -print0 | sort -z | xargs -0 "$rattle" fmt --check
}

laid_out() {
    local folder
    for folder in $rust; do
        cargo fmt --check --manifest-path "$folder/Cargo.toml" || return 1
    done
}

without_warnings() {
    local folder
    for folder in $rust; do
        if [ "$folder" = bench/compare ] && [ ! -e bench/plain ]; then
            continue
        fi
        cargo_in "$folder" clippy --all-targets -- -D warnings || return 1
    done
}

# What a test sources this file for stands above.
if [ "${BASH_SOURCE[0]}" != "$0" ]; then
    return
fi
all=
case ${1:-} in
    '') ;;
    --all) all=1 ;;
    *)
        echo "usage: tools/test.sh [--all]" >&2
        exit 2
        ;;
esac
if [ -n "$all" ]; then
    try "the gate: every proof, every edit, every program" .ci/run
    tail -n 1 "$out/said"
fi
if command -v rt >/dev/null; then
    try "the Rattle code: layout" laid_out_in_rattle .
    try "the programs in Rattle: built" programs
else
    echo "skipped the layout of the Rattle code and its programs: rt is not installed"
fi
if [ -f tools/house/unreached.py ]; then
    try "laws that nothing reaches" python3 tools/house/unreached.py
fi
if [ -z "${BUKZARN_LIBRARY:-}" ]; then
    try "the library" library
    BUKZARN_LIBRARY=crates/bukzarn/out
fi
BUKZARN_LIBRARY=$(cd "$BUKZARN_LIBRARY" && pwd) || exit 1
export BUKZARN_LIBRARY
try "the shared library" shared
# Tests of the pages run the command where the pages have it, in target/bin.
try "the command bukzarn: built" cargo install --quiet --path cli --root target
BUKZARN_LIBRARY=$out/library
# What keeps the house: imports, edits, lengths, parameters, names of numbers; document 01's forms; names in the documents.
house='test_house|test_design_places|test_comments|test_forms|test_registers|test_documents|test_figures|test_gate_order'
# Some files have tests that some Python on this machine may be able to run and the usual one not.
apart='test_python|test_decoder|test_bench|test_bench_page|test_cross'
modules=$(cd tools/tests && ls test_*.py | sed 's/\.py$//' | grep -Evx "$apart|$house")
cd tools/tests || exit 1
# shellcheck disable=SC2086 # the names of modules, a word each
try_python "what keeps the house" python3 ${house//|/ }
# shellcheck disable=SC2086 # the names of modules, a word each
try_python "the tools (Python)" python3 $modules
try_python "the package for Python" "$(python_with pandas)" test_python test_decoder
try_python "the bench in the browser" "$(python_with selenium)" test_bench test_bench_page
try_python "the library for other processors" python3 test_cross
cd ../..
try "the Rust crate" cargo_in bindings/rust test
try "the bench" cargo_in bench test
try "the command bukzarn" cargo_in cli test
try "the Rust code: layout" laid_out
try "the Rust code: no warnings" without_warnings
[ -e bench/plain ] || echo "skipped the warnings of bench/compare: the engine that it measures beside, bench/plain, is not there"
try "examples/c/watch.c" watch_in_c
try "examples/c/functions.c" functions_in_c
try "examples/c/receiver.c" receiver_in_c
try "bindings/rust/examples/receiver.rs" receiver_in_rust
exit $failed
