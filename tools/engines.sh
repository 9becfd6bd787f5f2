#!/bin/sh
# Runs expressions by chance in real engines: `tools/engines.sh [SEED [COUNT]]`, from seed 1 on and 5,000 of
# them unless told otherwise. Over a table of 50 rows with nulls, SQLite, PostgreSQL and ClickHouse have to give the value of
# the source for each row where it doesn't fault, to fail at arithmetic that has to fail (docs/embed/ENGINES.md), and to keep
# the rows of which a filter is true. Expressions that have no text in an engine, since it lacks days, decimals and instants or
# something of them, are counted by reason. An engine that isn't installed is installed from Debian's packages.
# PostgreSQL is started on a socket in a temporary folder, ClickHouse at a port on loopback, and both are stopped at the end.
# Ends with status 1 where an engine answers otherwise, and prints what; else with status 3 and a line that names the
# engines that aren't here, or don't start, if there are any.
# `rt ci` or `rt run vx_sql_rows` has built the program.
set -eu
cd "$(dirname "$0")/.."
seed=${1:-1}
count=${2:-5000}
program=$PWD/crates/vx_sql_rows/out/vx_sql_rows
missing=
. tools/servers.sh

# Tells that nothing was compared with an engine, and why.
is_missing() {
    echo "engines: $1: $2: nothing was compared"
    missing="$missing $1"
}

# Makes the script for an engine, and what it should print.
make_cases() {
    "$program" cases "$1" "$seed" "$count" >"$room/cases"
    take_apart "$room/cases"
}

# Compares what an engine printed, and how many statements failed and why, with what it should.
compare() {
    engine=$1
    cause=$2
    tr '|\t' '  ' <"$room/printed" >"$room/said"
    failed=$(grep -c "$cause" "$room/errors" || true)
    echo "$failed statements fail" >>"$room/said"
    grep -v "$cause" "$room/errors" >"$room/others" || true
    if ! diff "$room/answers" "$room/said" >"$room/differ"; then
        echo "engines: $engine answers otherwise from seed $seed on, as (wanted <, said >):"
        head -n 20 "$room/differ"
        head -n 20 "$room/others"
        exit 1
    fi
    if [ -s "$room/others" ]; then
        echo "engines: $engine says otherwise from seed $seed on:"
        head -n 20 "$room/others"
        exit 1
    fi
    echo "engines: $engine: $count expressions from seed $seed on, $(wc -l <"$room/answers") answers, all the source's"
    sort "$room/untold" | uniq -c | while read -r untold reason; do
        echo "engines: $engine: $untold of them have no text: $reason"
    done
}

run_sqlite() {
    command -v sqlite3 >/dev/null || add_package sqlite3 || {
        is_missing sqlite "isn't installed here, and couldn't be"
        return 0
    }
    make_cases sqlite
    sqlite3 -batch :memory: <"$room/script" >"$room/printed" 2>"$room/errors" || true
    compare sqlite '^Runtime error near line [0-9]*: malformed JSON$'
}

run_postgres() {
    has_postgres || {
        is_missing postgres "isn't installed here, and couldn't be"
        return 0
    }
    # A database that compares texts by the rules of a language shows where a comparison isn't told to go by bytes, and
    # another order of days and months where a day is told by it.
    make_database data --locale-provider=icu --icu-locale=en-US || make_database data || cat "$room/made"
    start_postgres data || {
        is_missing postgres "is installed here, and doesn't start"
        return 0
    }
    make_cases postgres
    ask_postgres data -c "SET DateStyle = 'SQL, DMY'" -f "$room/script" >"$room/printed" 2>"$room/errors" || true
    compare postgres 'ERROR:  \([a-z]* out of range\|division by zero\)$'
}

run_clickhouse() {
    has_clickhouse || {
        is_missing clickhouse "isn't installed here, and couldn't be"
        return 0
    }
    port=$(free_port 19400)
    start_clickhouse server "$port" || {
        is_missing clickhouse "is installed here, and doesn't start"
        tail -n 20 "$room/server/out" || true
        return 0
    }
    make_cases clickhouse
    ask_clickhouse "$port" --multiquery --ignore-error <"$room/script" >"$room/printed" 2>"$room/told" || true
    # Each error is told by several lines, of which one has the code.
    grep '^Code: ' "$room/told" >"$room/errors" || true
    compare clickhouse '^Code: 395\. .* Value passed to .throwIf. function is non zero'
}

run_sqlite
run_postgres
run_clickhouse
[ -z "$missing" ] || {
    echo "engines: missing:$missing"
    exit 3
}
