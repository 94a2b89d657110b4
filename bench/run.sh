#!/usr/bin/env bash
# Measures the verified engine, and a plain Rust engine beside it if its folder is given:
#     bench/run.sh [FOLDER_OF_PLAIN_ENGINE] [--images DIR] [--load SEEDS [--depth D]] [--quick] [--places N] [--dump DIR]
#                  [--write] [--calls N [--seed S]]
#     bench/run.sh [FOLDER_OF_PLAIN_ENGINE] --languages [--quick] [--places N] [--write]
#     bench/run.sh --procedures [--quick] [--write]
#     bench/run.sh --worst [--quick] [--instructions] [--dump DIR] [--write]
# The plain engine is a crate named `baseline` with `engine(image, frame, budget, log, report, work) -> Answer`.
# --images DIR measures the images in a folder's files and not the bench's own; --load SEEDS measures generated images
# (document 02, card 12), say of --load 1-64,155840010, at depth 9 unless --depth says another; --quick measures less
# often; --places N measures with the code of both engines in N places of memory, 9 at most, and prints the means;
# --dump DIR writes the images and measures nothing; --write writes what was measured into the documents of docs/ and
# docs/performance.svg. Of --load a table is printed, and nothing else is done with the times. --calls N only compares
# results: it makes N calls of both engines on random images and stops at the first that leaves other bytes.
# --languages measures the decoding job in other languages, as far as they are installed. --procedures measures the
# procedures of examples/ over recordings, in single calls and in one call for many frames. --worst searches for the
# dearest images of each function of the library and prints what they cost, with --instructions counted by valgrind
# too; --dump DIR then writes these images.
set -euo pipefail
bench=$(cd "$(dirname "$0")" && pwd)
package=$bench
if [ $# -gt 0 ] && [ "${1#--}" = "$1" ]; then
    ln -sfn "$(cd "$1" && pwd)" "$bench/plain"
    package=$bench/compare
    shift
fi
options=()
places=1
while [ $# -gt 0 ]; do
    case $1 in
    --write) options+=(--write "$bench/../docs") ;;
    --places) places=$2; shift ;;
    --images) options+=(--images "$(cd "$2" && pwd)"); shift ;;
    *) options+=("$1") ;;
    esac
    shift
done
# The library as the sources are now, unless another one is named.
if [ -z "${BUKZARN_LIBRARY:-}" ]; then
    said=$(cd "$bench/../crates/bukzarn" && rt lib 2>&1) || { printf '%s\n' "$said" >&2; exit 1; }
fi
measured() {
    CARGO_TARGET_DIR=$bench/target cargo run --quiet --release --manifest-path "$package/Cargo.toml" -- "$@"
}
if [ "$places" -gt 1 ]; then
    times=$(mktemp)
    trap 'rm -f "$times"' EXIT
    for ((place = 1; place < places; place++)); do
        BENCH_PLACE=$place measured --save "$times" "${options[@]}"
    done
    options+=(--means "$times")
fi
measured "${options[@]}"
