# Starts and stops ClickHouse for `servers.sh`. Each server has a folder in `$room` and a port on loopback, and keeps
# nothing elsewhere.

clickhouse_servers=

# Whether ClickHouse is there, installed if need be.
has_clickhouse() {
    command -v clickhouse-server >/dev/null && command -v clickhouse-client >/dev/null || add_package clickhouse-server clickhouse-client
}

# The settings of a server of that name, with shards at those ports.
clickhouse_settings() {
    folder=$room/$1
    port=$2
    shift 2
    echo "<yandex><logger><level>none</level></logger><listen_host>127.0.0.1</listen_host><tcp_port>$port</tcp_port>
<path>$folder/data/</path><tmp_path>$folder/tmp/</tmp_path><mark_cache_size>1000000</mark_cache_size>
<users_config>$folder/config.xml</users_config><default_profile>default</default_profile><default_database>default</default_database>
<query_log><database>system</database><table>query_log</table><flush_interval_milliseconds>500</flush_interval_milliseconds></query_log>
<profiles><default><max_threads>1</max_threads><log_queries>1</log_queries><insert_distributed_sync>1</insert_distributed_sync></default></profiles>
<quotas><default></default></quotas>
<users><default><password></password><profile>default</profile><quota>default</quota><networks><ip>127.0.0.1</ip></networks></default></users>
<remote_servers><shards>"
    for shard in "$@"; do
        echo "<shard><replica><host>127.0.0.1</host><port>$shard</port></replica></shard>"
    done
    echo "</shards></remote_servers></yandex>"
}

# Starts a server of that name and port that knows shards at the ports behind. Another user runs it where this one is root.
start_clickhouse() {
    mkdir -p "$room/$1"
    clickhouse_settings "$@" >"$room/$1/config.xml"
    as_clickhouse=
    if [ "$(id -u)" -eq 0 ]; then
        user=$(id -un clickhouse 2>/dev/null || echo nobody)
        chmod a+x "$room"
        chown -R "$user" "$room/$1"
        as_clickhouse="setpriv --reuid=$user --regid=$(id -g "$user") --clear-groups"
    fi
    (cd "$room/$1" && exec $as_clickhouse clickhouse-server --config-file="$room/$1/config.xml") >"$room/$1/out" 2>&1 </dev/null &
    clickhouse_servers="$clickhouse_servers $!"
    for _ in $(seq 100); do
        if ask_clickhouse "$2" --query="SELECT 1" >"$room/$1/answer" 2>&1; then
            return 0
        fi
        sleep 0.2
    done
    return 1
}

# Asks the server at that port.
ask_clickhouse() {
    asked=$1
    shift
    clickhouse-client --host=127.0.0.1 --port="$asked" "$@"
}

# A port that nothing listens at, from that one on.
free_port() {
    python3 -c '
import socket, sys
for port in range(int(sys.argv[1]), 65000):
    with socket.socket() as tried:
        if tried.connect_ex(("127.0.0.1", port)):
            print(port)
            break' "$1"
}

stop_clickhouse() {
    for process in $clickhouse_servers; do
        kill "$process" 2>/dev/null || true
    done
    for process in $clickhouse_servers; do
        wait "$process" 2>/dev/null || true
    done
    clickhouse_servers=
}
