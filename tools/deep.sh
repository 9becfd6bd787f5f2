#!/bin/sh
# Runs trees of ten thousand levels through each call that goes down a tree: the table
# crates/vx_table_tests/data/deep.table, which the gate's own run leaves out (docs/audit/REFUSALS.md, "Trees that are
# deep"). `rt ci` has built the program. Prints each line that is answered otherwise, and the counts;
# the status is 0 where all 154 lines are answered as they say.
set -eu
cd "$(dirname "$0")/../crates/vx_table_tests/data"
said=$(../out/vx_table_tests deep.table) || true
printf '%s\n' "$said"
[ "$(printf '%s\n' "$said" | tail -n 1)" = "154 rows, 0 failed" ]
