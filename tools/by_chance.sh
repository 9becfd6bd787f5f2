#!/bin/sh
# Judges what is made by chance, a line for each 10,000: `tools/by_chance.sh KIND ANSWER SEED COUNT`
# gives the program `vx_table_tests` lines of that kind (docs/audit/TABLES.md), which have to be answered so, from
# the seed on. Ends with status 1 at the first that isn't, and prints what is told of it. `rt ci` or
# `rt run vx_table_tests` has built the program.
set -eu
cd "$(dirname "$0")/.."
kind=$1
answer=$2
seed=$3
count=$4
program=$PWD/crates/vx_table_tests/out/vx_table_tests
room=$(mktemp -d)
trap 'rm -r "$room"' EXIT
cd "$room"
tried=0
while [ "$tried" -lt "$count" ]; do
    some=$((count - tried))
    [ "$some" -le 10000 ] || some=10000
    echo "$kind | $seed $some | $answer" >chance.table
    if ! "$program" chance.table >said; then
        cat said
        exit 1
    fi
    tried=$((tried + some))
    echo "$tried of $count, the last from seed $seed on: $answer"
    seed=$((seed + 1))
done
