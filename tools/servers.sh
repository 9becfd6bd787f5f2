# What scripts need that ask engines, and that read this file at the top of the repository: a folder `$room`, packages,
# and servers of ClickHouse and PostgreSQL. At the end the servers are stopped, and the folder is removed.

room=$(mktemp -d)
chmod a+x "$room"
. tools/clickhouse.sh
. tools/postgres.sh

stop() {
    stop_clickhouse
    stop_postgres
    rm -r "$room"
}
trap stop EXIT
trap 'exit 1' INT TERM

# Takes apart what `vx_sql_rows` printed: what is behind a line as `-- answers` goes into that file of the folder.
take_apart() {
    awk -v room="$room" '/^-- [a-z]+$/ { file = room "/" $2; printf "" >file; next } { print >file }' "$1"
}

# Installs packages, if that is allowed here. Where the list of packages is old, it is read anew.
add_package() {
    [ "$(id -u)" -eq 0 ] && command -v apt-get >/dev/null || return 1
    install_package "$@" || { timeout 300 apt-get update -q >"$room/installed" 2>&1 </dev/null && install_package "$@"; }
}

install_package() {
    DEBIAN_FRONTEND=noninteractive timeout 300 apt-get install -y -q "$@" >"$room/installed" 2>&1 </dev/null
}
