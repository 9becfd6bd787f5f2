#!/bin/sh
# Runs the program `vx`, and in runs/show `vx_show`, over each stored run, runs/*/*.txt, and compares
# what comes of it byte for byte. `vx` is what is given, else the one that `rt ci` or `rt run` has
# built; `vx_show` is the one beside it, else the one that was built so.
#
# A stored run is what a terminal shows of it: `$ ` and the command, as the shell takes it, and then
# what it writes on standard output. Where its status isn't 0 or something is on standard error, the
# line `? STATUS` follows, and what is on standard error. It runs in a copy of runs/data, beside
# 100,000 records of the same kind in many.csv and many.jsonl, and its standard input is empty where
# the command says nothing else. Prints how a run differs, and at the end a count; the status is 1
# where one differs.
set -eu
cd "$(dirname "$0")/.."
program=$(realpath "${1:-crates/vx/out/vx}")
show=$(dirname "$program")/vx_show
[ -e "$show" ] || show=$PWD/crates/vx_show/out/vx_show
room=$(mktemp -d)
trap 'rm -r "$room"' EXIT
mkdir "$room/bin"
ln -s "$program" "$room/bin/vx"
ln -s "$show" "$room/bin/vx_show"
cp -R runs/data "$room/data"
tools/records.sh 100000 csv >"$room/data/many.csv"
tools/records.sh 100000 jsonl >"$room/data/many.jsonl"
runs=0
failed=0

# Runs the command, and writes what a terminal shows of it.
shown() {
    status=0
    (cd "$room/data" && PATH=$room/bin:$PATH timeout 60 sh -c "$1") \
        >"$room/out" 2>"$room/err" </dev/null || status=$?
    printf '$ %s\n' "$1"
    cat "$room/out"
    if [ "$status" -ne 0 ] || [ -s "$room/err" ]; then
        echo "? $status"
        cat "$room/err"
    fi
}

for run in runs/*/*.txt; do
    runs=$((runs + 1))
    shown "$(sed -n '1s/^\$ //p' "$run")" >"$room/shown"
    if ! diff -u "$run" "$room/shown"; then
        failed=$((failed + 1))
    fi
done
echo "runs: $runs runs, $failed failed"
[ "$failed" -eq 0 ]
