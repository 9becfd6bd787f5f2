#!/bin/sh
# Runs plans of expressions by chance over rows that stand on two servers: `tools/cluster.sh [SEED [COUNT]]`, from
# seed 1 on and 300 of them unless told otherwise. Two ClickHouse servers have the shards of a `Distributed` table, and
# two PostgreSQL servers the partitions of a third one's table.
#
# Each plan of an expression as it is made has to be handed on with its condition, as the shards' logs of queries and
# `EXPLAIN VERBOSE` show (tools/conditions.py). Of the rows that come back those are kept of which what the plan leaves is
# true, by vx_eval, and their numbers have to be the source's. Then each is planned and run as a user would: the statement
# is that of `vx plan --sql`, `vx filter` takes its residual over the records that come back, as JSON lines, and they have to
# be those of `vx filter` of the source over all records (tools/residuals.py).
#
# What isn't installed is installed from Debian's packages. All servers are on loopback or on sockets in a temporary folder,
# and are stopped at the end. Ends with a line `cluster: N expressions, M failed`, and with status 1 if any failed, else
# with status 3 and a line that names what isn't here, if that is so of ClickHouse or PostgreSQL.
# `rt ci` has built the programs, or `rt run vx_sql_rows` and `rt run vx`.
set -eu
cd "$(dirname "$0")/.."
seed=${1:-1}
count=${2:-300}
program=$PWD/crates/vx_sql_rows/out/vx_sql_rows
vx=$PWD/crates/vx/out/vx
expressions=0
failed=0
missing=
. tools/servers.sh

# Writes the plans for an engine: the table's statements, without and with its rows, and the rest.
write_plans() {
    "$program" plans "$1" "$seed" "$count" >"$room/plans"
    take_apart "$room/plans"
    sed '/^INSERT INTO /,$d' "$room/table" >"$room/columns"
    sed -n '/^INSERT INTO /,$p' "$room/table" | sed 's/^INSERT INTO t /INSERT INTO spread /' >"$room/rows"
    for part in left answers; do
        sort -o "$room/$part" "$room/$part"
    done
}

# Compares the records that an engine gave of the statements that `vx plan` prints with the source's.
compare_by_vx() {
    wrong=0
    tools/residuals.py compare "$1" "$vx" "$room" >"$room/told" 2>>"$room/errors" || wrong=1
    echo "cluster: $1, by vx plan: $(cat "$room/told")"
    count_errors "$1"
    expressions=$((expressions + count))
    failed=$((failed + wrong))
}

# Prints what an engine said beside rows, which it has to say nothing of.
count_errors() {
    [ ! -s "$room/errors" ] || {
        echo "cluster: $1 says:"
        head -n 10 "$room/errors"
        wrong=$((wrong + 1))
    }
}

# Tells that nothing was run of an engine, and why.
is_missing() {
    echo "cluster: $1: $2: nothing was run"
    missing="$missing $1"
}

# Keeps of the rows that an engine gave those of which what is left is true, and compares them with the source's. Each
# row begins with its number, and the word `plan` stands before the rows of each expression.
compare() {
    awk '/^plan [0-9]+$/ { plan = $2; next } /^[0-9]+(\t|$)/ { print plan, $1 + 0 }' "$room/said" | sort >"$room/given"
    comm -12 "$room/given" "$room/left" >"$room/kept"
    diff "$room/answers" "$room/kept" >"$room/differ" || true
    wrong=$(awk '/^[<>]/ { print $2 }' "$room/differ" | sort -u | wc -l)
    run=$(grep '^plan [0-9]*$' "$room/said" | sort -u | wc -l)
    given=$(wc -l <"$room/given")
    echo "cluster: $1: $run expressions over two servers, $given rows came back, $(wc -l <"$room/kept") kept, $wrong expressions differ"
    [ "$wrong" -eq 0 ] || head -n 10 "$room/differ"
    [ "$run" -eq "$count" ] || {
        echo "cluster: $1: $((count - run)) statements weren't run"
        wrong=$((wrong + count - run))
    }
    count_errors "$1"
    expressions=$((expressions + run))
    failed=$((failed + wrong))
}

# Tells with how much of their conditions the statements came to a server, as `$room/wanted` and that file show.
handed_on() {
    tools/conditions.py "$1" "$room/wanted" "$2" >"$room/told" || failed=$((failed + 1))
    echo "cluster: $1: $3 got $(cat "$room/told")"
}

run_clickhouse() {
    has_clickhouse || {
        is_missing clickhouse "isn't installed here, and couldn't be"
        return 0
    }
    first=$(free_port 19500)
    second=$(free_port $((first + 1)))
    asker=$(free_port $((second + 1)))
    start_clickhouse first "$first" && start_clickhouse second "$second" && start_clickhouse asker "$asker" "$first" "$second" || {
        is_missing clickhouse "is installed here, and doesn't start"
        return 0
    }
    write_plans clickhouse
    for port in "$first" "$second" "$asker"; do
        ask_clickhouse "$port" --multiquery <"$room/columns"
    done
    ask_clickhouse "$asker" --query='CREATE TABLE spread AS t ENGINE = Distributed(shards, default, t, "row")'
    ask_clickhouse "$asker" --multiquery <"$room/rows"
    echo "cluster: clickhouse: $(ask_clickhouse "$first" --query='SELECT count() FROM t') rows on one server, $(ask_clickhouse "$second" --query='SELECT count() FROM t') on the other"
    ask_clickhouse "$asker" --multiquery --ignore-error <"$room/script" >"$room/said" 2>"$room/errors" || true
    compare clickhouse
    sleep 2
    # A view over a shard's own table shows how a server writes the statement by itself.
    awk '/^SELECT .plan [0-9]+.;$/ { plan = $3 + 0; print "CREATE VIEW plan" plan " AS"; next }
        { sub(/ FROM `spread` WHERE /, " FROM `t` WHERE "); print }
        /;$/ { print "SHOW CREATE TABLE plan" plan ";" }' "$room/script" >"$room/views"
    ask_clickhouse "$asker" --multiquery <"$room/views" >"$room/wanted"
    for port in "$first" "$second"; do
        ask_clickhouse "$port" --query="SELECT query FROM system.query_log WHERE type = 1 AND is_initial_query = 0 AND query LIKE 'SELECT%FROM default.t%'" >"$room/came"
        handed_on clickhouse "$room/came" "the server at port $port"
    done
    tools/residuals.py plan clickhouse "$vx" "$room"
    ask_clickhouse "$asker" --multiquery --ignore-error <"$room/asks" >"$room/said" 2>"$room/errors" || true
    ask_clickhouse "$asker" <"$room/ask_all" >"$room/all" 2>>"$room/errors" || true
    compare_by_vx clickhouse
    stop_clickhouse
}

run_postgres() {
    has_postgres || {
        is_missing postgres "isn't installed here, and couldn't be"
        return 0
    }
    # Databases that compare texts by the rules of a language show whether a condition that is handed on goes by bytes.
    for name in one two third; do
        make_database "$name" --locale-provider=icu --icu-locale=en-US || make_database "$name" || cat "$room/made"
        start_postgres "$name" || {
            is_missing postgres "is installed here, and doesn't start"
            return 0
        }
    done
    write_plans postgres
    # postgres_fdw hands on an explicit collation that is the column's own, and structs of a type that belongs to an
    # extension which the server's options name.
    sed -i 's/" text/" text COLLATE "C"/g; /^CREATE TYPE pair /a ALTER EXTENSION plpgsql ADD TYPE pair;' "$room/columns"
    for name in one two; do
        ask_postgres "$name" -f "$room/columns"
    done
    {
        sed 's/^CREATE TABLE t (/CREATE TABLE spread (/; s/);$/) PARTITION BY HASH ("row");/' "$room/columns" | sed 's/^\(CREATE TYPE .*\)) PARTITION BY HASH ("row");$/\1);/'
        echo "CREATE EXTENSION postgres_fdw;"
        part=0
        for name in one two; do
            echo "CREATE SERVER $name FOREIGN DATA WRAPPER postgres_fdw OPTIONS (host '$room/$name', dbname 'postgres', extensions 'plpgsql');"
            echo "CREATE USER MAPPING FOR postgres SERVER $name OPTIONS (user 'postgres');"
            echo "CREATE FOREIGN TABLE spread_$name PARTITION OF spread FOR VALUES WITH (MODULUS 2, REMAINDER $part) SERVER $name OPTIONS (schema_name 'public', table_name 't');"
            part=$((part + 1))
        done
    } >"$room/spread"
    ask_postgres third -f "$room/spread"
    ask_postgres third -f "$room/rows"
    echo "cluster: postgres: $(ask_postgres one -c 'SELECT count(*) FROM t') rows on one server, $(ask_postgres two -c 'SELECT count(*) FROM t') on the other"
    ask_postgres third -f "$room/script" >"$room/said" 2>"$room/errors" || true
    compare postgres
    cp "$room/said" "$room/explained"
    tools/residuals.py plan postgres "$vx" "$room"
    ask_postgres third -f "$room/asks" >"$room/said" 2>"$room/errors" || true
    ask_postgres third -f "$room/ask_all" >"$room/all" 2>>"$room/errors" || true
    compare_by_vx postgres
    # What is handed on and what is kept has to be what one of the two filters its own table by. COALESCE and fields of
    # structs are kept.
    sed 's/ FROM "spread" WHERE / FROM "t" WHERE /' "$room/script" >"$room/alone"
    ask_postgres one -f "$room/alone" >"$room/wanted"
    handed_on postgres "$room/explained" "each server"
    whole=$(sed -n '1s/^\([0-9]*\) .*/\1/p' "$room/told")
    [ "$whole" -ge $((count / 2)) ] || failed=$((failed + 1))
    # Each of the two takes the whole statement, if it is asked itself.
    ask_postgres two -f "$room/alone" | cat "$room/wanted" - >"$room/said"
    compare "postgres, each server asked by itself"
}

run_clickhouse
run_postgres
echo "cluster: $expressions expressions, $failed failed"
[ "$failed" -eq 0 ] || exit 1
[ -z "$missing" ] || {
    echo "cluster: missing:$missing"
    exit 3
}
