# Starts and stops PostgreSQL for `servers.sh`. Each server has a folder in `$room`, and a socket in it.

postgres=
as_postgres=
postgres_servers=

# The folder of PostgreSQL's programs, the newest one's.
postgres_folder() {
    ls -d /usr/lib/postgresql/*/bin 2>/dev/null | sort -V | tail -n 1
}

# Whether PostgreSQL is there, installed if need be.
has_postgres() {
    [ -n "$(postgres_folder)" ] || add_package postgresql || return 1
    postgres=$(postgres_folder)
}

# Makes a database of that name in UTF-8, with those options. Another user owns it where this one is root, whom the server refuses.
make_database() {
    rm -rf "${room:?}/$1"
    mkdir "$room/$1"
    if [ "$(id -u)" -eq 0 ]; then
        user=$(id -un postgres 2>/dev/null || echo nobody)
        chown "$user" "$room/$1"
        as_postgres="setpriv --reuid=$user --regid=$(id -g "$user") --clear-groups"
    fi
    made=$room/$1
    shift
    $as_postgres "$postgres/initdb" -D "$made" -U postgres -A trust -E UTF8 --locale=C.UTF-8 "$@" >"$room/made" 2>&1
}

# Starts the server of the database of that name.
start_postgres() {
    $as_postgres "$postgres/pg_ctl" -D "$room/$1" -o "-k $room/$1 -c listen_addresses= -c fsync=off" -l "$room/$1/log" -w start >"$room/started" || {
        tail -n 20 "$room/started" "$room/$1/log" || true
        return 1
    }
    postgres_servers="$postgres_servers $1"
}

# Asks the server of that name, in a zone where an instant that is told without one is another.
ask_postgres() {
    asked=$1
    shift
    PGOPTIONS='-c client_min_messages=warning -c timezone=America/St_Johns' "$postgres/psql" -X -q -A -t -h "$room/$asked" -U postgres -d postgres -v VERBOSITY=terse "$@"
}

stop_postgres() {
    for name in $postgres_servers; do
        $as_postgres "$postgres/pg_ctl" -D "$room/$name" -m immediate stop >"$room/stopped" 2>&1 || cat "$room/stopped"
    done
    postgres_servers=
}
