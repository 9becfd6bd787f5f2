#!/bin/sh
# Times `vx filter` over a CSV file of orders beside sqlite3, which reads the same file into a table in
# memory and selects from it, and beside Miller's `mlr filter`. Prints a line of a table for each filter:
# how many records it keeps, and for each program the processor seconds, the median of 5 runs in turns,
# and the megabytes at the peak. Stops where they don't keep the same records. A program that isn't
# installed is left out. docs/develop/BENCHMARKS.md has what was measured.
#
# usage: bench/filter.sh [PROGRAM [RECORDS]], or bench/filter.sh others [RECORDS] for the others alone
set -eu
cd "$(dirname "$0")/.."
program=${1:-crates/vx/out/vx}
records=${2:-1000000}
room=$(mktemp -d)
trap 'rm -r "$room"' EXIT
tools/records.sh "$records" >"$room/orders.csv"
cp runs/data/orders.schema "$room"
[ "$program" = others ] || ln -s "$(realpath "$program")" "$room/vx"
cd "$room"
python3 - <<'PYTHON'
import hashlib, os, shutil, statistics, subprocess, sys

READINGS = 5
IMPORT = """
create table orders (id integer, placed text, customer text, item text, quantity integer,
    cents integer, rating integer, note text, paid text, city text, country text, express text);
.import --csv --skip 1 orders.csv orders
pragma case_sensitive_like = on;
.mode csv
"""
# The filters, for `vx`, for SQLite, which imports an empty cell as a text without a character, and for
# Miller, which takes such a cell for no value.
FILTERS = [
    (
        'item = "Egg timer" and rating <= 1 and quantity = 12',
        "item = 'Egg timer' and rating <= 1 and quantity = 12",
        '$item == "Egg timer" && is_not_empty($rating) && $rating <= 1 && $quantity == 12',
    ),
    ("quantity <= 6", "quantity <= 6", "$quantity <= 6"),
    ('note like "%smoke%"', "note like '%smoke%'", '$note =~ "smoke"'),
]


def measured(words, script=""):
    """The processor seconds and the megabytes at the peak that the program takes; how many orders it
    writes, and a digest of their numbers."""
    with open("out", "w") as out, open("script", "w") as it:
        it.write(script)
        it.flush()
        with open("script") as given:
            ran = subprocess.Popen(words, stdin=given, stdout=out)
        _, status, usage = os.wait4(ran.pid, 0)
    if status != 0:
        sys.exit(f"{words[0]} failed with status {os.waitstatus_to_exitcode(status)}")
    return usage.ru_utime + usage.ru_stime, usage.ru_maxrss / 1024, written()


def written():
    """How many orders were written, and a digest of their numbers. None is kept, since a program that
    is started counts what this one holds as memory of its own."""
    count, digest = 0, hashlib.sha256()
    with open("out", "rb") as out:
        for line in out:
            number = line.split(b",", 1)[0]
            if number != b"id":
                count += 1
                digest.update(number + b"\n")
    return count, digest.hexdigest()


def filtered(filters):
    return measured(["./vx", "filter", filters[0], "--data", "orders.csv", "--schema", "@orders.schema"])


def selected(filters):
    return measured(["sqlite3", ":memory:"], f"{IMPORT}select * from orders where {filters[1]};\n")


def by_miller(filters):
    return measured(["mlr", "--icsv", "--ocsv", "filter", filters[2], "orders.csv"])


PROGRAMS = [("vx", "./vx", filtered), ("SQLite", "sqlite3", selected), ("Miller", "mlr", by_miller)]
there = [(name, run) for name, file, run in PROGRAMS if shutil.which(file)]
columns = [f"{name} (s) | {name} peak (MB)" for name, _ in there]
print("| Filter | Kept |", " | ".join(columns), "|\n|---|---:|" + "---:|" * 2 * len(there))
for filters in FILTERS:
    readings = {name: [] for name, _ in there}
    for _ in range(READINGS):
        for name, run in there:
            readings[name].append(run(filters))
    kept = {orders for of in readings.values() for _, _, orders in of}
    if len(kept) != 1:
        sys.exit(f"{filters[0]}: they keep other records: " + ", ".join(f"{name} {of[0][2][0]}" for name, of in readings.items()))
    cells = []
    for of in readings.values():
        seconds, peaks, _ = zip(*of)
        cells += [f"{statistics.median(seconds):.2f}", f"{max(peaks):.0f}"]
    print(f"| `{filters[0]}` | {kept.pop()[0]} |", " | ".join(cells), "|", flush=True)
PYTHON
