#!/bin/sh
# Builds the static library and the driver, and runs the benchmark: the queries over 1,000,000 rows
# and then the passes. Give it a number of rows for the queries alone, the word arrays for those over
# arrays alone (with a number of rows, over so many), the word passes for the passes alone, the word
# growth for the queries over 10,000 to 10,000,000 rows, the word depths for the deepest trees that
# each pass returns from, the word texts for source text read and written, or the word chunks for a
# range that is looked for in chunks with statistics and without.
set -eu
cd "$(dirname "$0")"
(cd ../crates/vx_bench && rt lib >/dev/null)
mkdir -p out
# The processor is the one that the library is built for.
rustc --edition 2024 -C opt-level=3 -C target-cpu=x86-64-v2 src/main.rs -o out/compare \
    -C link-arg="$PWD/../crates/vx_bench/out/libvx_bench.a"
# A pass calls itself at each level of a tree, and the deepest has 32,770 levels: 4 GiB of stack.
ulimit -s 4194304 2>/dev/null || ulimit -s "$(ulimit -H -s)"
exec out/compare "$@"
