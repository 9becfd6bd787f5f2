#!/bin/sh
# Judges random expressions by an independent model: `tools/model.sh SEED COUNT [PROGRAM]`
# gives the program `vx_table_tests` tables of tools/model.py (docs/audit/TABLES.md), of 2,000 expressions each, from
# the seed on. Each answer and each first fault has to be the model's. Prints what differs, and last
# `model: N expressions, M answers, K faults, 0 failed`; ends with status 1 where something differs. `rt ci` or
# `rt run vx_table_tests` has built the program, unless another is named.
set -eu
cd "$(dirname "$0")/.."
seed=$1
count=$2
program=$(realpath "${3:-crates/vx_table_tests/out/vx_table_tests}")
model=$PWD/tools/model.py
room=$(mktemp -d)
trap 'rm -r "$room"' EXIT
cd "$room"
tried=0 answers=0 faults=0 failed=0
while [ "$tried" -lt "$count" ]; do
    some=$((count - tried))
    [ "$some" -le 2000 ] || some=2000
    python3 "$model" table "$seed" "$some" >model.table
    if ! "$program" model.table >said; then
        echo "differs from seed $seed on:"
        sed '/^0 wrong lines\|^0 lines that/d' said
    fi
    # the last line of a table, and the last of what is told: `N rows, K failed`
    set -- $(tail -n 1 model.table)
    answers=$((answers + $4)) faults=$((faults + $6))
    set -- $(tail -n 1 said)
    [ "$2" = rows, ]
    failed=$((failed + $3))
    tried=$((tried + some))
    seed=$((seed + 1))
done
echo "model: $tried expressions, $answers answers, $faults faults, $failed failed"
[ "$failed" -eq 0 ]
