#!/usr/bin/env python3
"""The queries of the benchmark in numpy, numexpr, SQLite and ClickHouse, each on one thread over rows in
memory: prints the nanoseconds a row of each, and stops where their answers differ. A query that an engine
has no words for, and an engine that isn't installed, has no figure. Time is by the clock: the median of five
readings. Rows are those of bench/src/batch.rs. ClickHouse runs in a folder of its own, which goes with it.

usage: bench/others.py [ROWS ..]      1,000,000 rows where none are said
       Debian has all four: python3-numpy, python3-numexpr, sqlite3, clickhouse-server and clickhouse-client
"""
import os
import shutil
import sqlite3
import statistics
import subprocess
import sys
import tempfile
import time

import numpy as np

try:
    import numexpr
    numexpr.set_num_threads(1)
except ImportError:
    numexpr = None

READINGS = 5
PORT = 19_000
LETTERS = np.frombuffer(b"abcde", dtype="S1")


class Rows:
    """Columns `f0` to `f3` of numbers that may be null, `k` of keys, and `s` of texts that may be null."""

    def __init__(self, count):
        self.count = count
        places = np.arange(count + 3, dtype=np.uint64)
        scattered = places * np.uint64(2_654_435_761) % np.uint64(1_000_000)
        values, valid = scattered.astype(np.int64) - 100_000, scattered % np.uint64(10) != 7
        self.values = [values[i : i + count].astype(np.int32) for i in range(4)]
        self.valid = [valid[i : i + count].copy() for i in range(4)]
        self.key = (places[:count] // np.uint64(1_000) % np.uint64(3)).astype(np.int32)
        digits = scattered[:count, None] // np.uint64(5) ** np.arange(8, dtype=np.uint64) % np.uint64(5)
        self.texts = np.ascontiguousarray(LETTERS[digits]).view("S8").ravel()

    def rows(self):
        """The rows, a tuple each, with None for null."""
        columns = [
            [int(x) if v else None for x, v in zip(values, valid)] for values, valid in zip(self.values, self.valid)
        ]
        texts = [t.decode() if v else None for t, v in zip(self.texts.tolist(), self.valid[0])]
        return zip(*columns, self.key.tolist(), texts)


def within(rows, i, least, most):
    """Which numbers of a column lie between the two, and which of them are known."""
    return (rows.values[i] >= least) & (rows.values[i] <= most), rows.valid[i]


def both(left, right):
    """And, where null is a truth value that isn't known."""
    (a, v), (b, w) = left, right
    return a & b, (v & w) | (v & ~a) | (w & ~b)


def four_ranges(rows):
    found = within(rows, 0, -50_000, 850_000)
    for i in range(1, 4):
        found = both(found, within(rows, i, -50_000, 850_000))
    return found


def case(rows):
    x, known = rows.values[0], rows.valid[0]
    chosen = np.where(known & (x > 0), np.int32(10), np.where(known & (x > 3), np.int32(20), np.int32(30)))
    return chosen, None


def case_of_fields(rows):
    first, second = rows.key == 0, rows.key == 1
    pick = lambda columns: np.where(first, columns[0], np.where(second, columns[1], columns[2]))
    return pick(rows.values), pick(rows.valid)


def zipped(rows):
    mask = (rows.values[2] >= 400_000) & rows.valid[2]
    return np.where(mask, rows.values[0], rows.values[1]), np.where(mask, rows.valid[0], rows.valid[1])


def like(rows):
    ends, inner = np.char.endswith(rows.texts, b"d"), np.char.find(rows.texts, b"b") >= 0
    return ends & inner, rows.valid[0]


RANGE = "f{0} >= {1} and f{0} <= {2}"
FOUR = " and ".join(RANGE.format(i, -50_000, 850_000) for i in range(4))

# Each query: its name, in numpy, in numexpr over values and validity, and in SQL.
QUERIES = [
    (
        "range",
        lambda rows: within(rows, 0, 10, 500_000),
        ("(f0 >= 10) & (f0 <= 500000)", "v0"),
        RANGE.format(0, 10, 500_000),
    ),
    (
        "four ranges",
        four_ranges,
        ("&".join(f"(f{i} >= -50000) & (f{i} <= 850000)" for i in range(4)), None),
        FOUR,
    ),
    (
        "CASE",
        case,
        ("where(v0 & (f0 > 0), 10, where(v0 & (f0 > 3), 20, 30))", None),
        "case when f0 > 0 then 10 when f0 > 3 then 20 else 30 end",
    ),
    (
        "CASE of fields, runs",
        case_of_fields,
        ("where(k == 0, f0, where(k == 1, f1, f2))", "where(k == 0, v0, where(k == 1, v1, v2))"),
        "case when k = 0 then f0 when k = 1 then f1 else f2 end",
    ),
    (
        "zip",
        zipped,
        ("where(v2 & (f2 >= 400000), f0, f1)", "where(v2 & (f2 >= 400000), v0, v1)"),
        "case when f2 >= 400000 then f0 else f1 end",
    ),
    (
        "fill_null",
        lambda rows: (np.where(rows.valid[0], rows.values[0], np.int32(5)), None),
        ("where(v0, f0, 5)", None),
        "coalesce(f0, 5)",
    ),
    (
        "sum",
        lambda rows: (rows.values[0] + rows.values[1], rows.valid[0] & rows.valid[1]),
        ("f0 + f1", "v0 & v1"),
        "f0 + f1",
    ),
    ("is_null", lambda rows: (~rows.valid[0], None), ("~v0", None), "f0 is null"),
    ("LIKE", like, None, "s like '%b%d'"),
]


def reading(call):
    """The seconds that the call takes, the median of so many readings."""
    times = []
    for _ in range(READINGS):
        begin = time.perf_counter()
        call()
        times.append(time.perf_counter() - begin)
    return statistics.median(times)


def sum_of(values, known):
    """The sum of the rows that aren't null, or how many are true. (Which are null isn't compared: And of
    ClickHouse 18 is null beside any null.)"""
    return int(values.sum(dtype=np.int64) if known is None else values[known].sum(dtype=np.int64))


def by_numexpr(rows, texts):
    columns = {f"f{i}": rows.values[i] for i in range(4)} | {f"v{i}": rows.valid[i] for i in range(4)}
    columns["k"] = rows.key
    return lambda: [numexpr.evaluate(text, columns) for text in texts if text]


class Sqlite:
    """A table in memory."""

    def __init__(self, rows):
        self.base = sqlite3.connect(":memory:")
        self.base.execute("create table t (f0 int, f1 int, f2 int, f3 int, k int, s text)")
        self.base.execute("pragma case_sensitive_like = on")
        self.base.executemany("insert into t values (?, ?, ?, ?, ?, ?)", rows.rows())

    def sum(self, text):
        return self.base.execute(f"select sum({text}) from t").fetchone()[0]

    def seconds(self, text):
        return reading(lambda: self.base.execute(f"select count({text}) from t").fetchone())

    def close(self):
        self.base.close()


CONFIG = """<yandex>
  <logger><level>none</level></logger>
  <listen_host>127.0.0.1</listen_host>
  <tcp_port>{port}</tcp_port>
  <path>{room}/data/</path>
  <tmp_path>{room}/tmp/</tmp_path>
  <mark_cache_size>1000000</mark_cache_size>
  <users_config>{room}/config.xml</users_config>
  <default_profile>default</default_profile>
  <default_database>default</default_database>
  <profiles><default><max_threads>1</max_threads></default></profiles>
  <quotas><default></default></quotas>
  <users>
    <default>
      <password></password>
      <profile>default</profile>
      <quota>default</quota>
      <networks><ip>127.0.0.1</ip></networks>
    </default>
  </users>
</yandex>
"""


class ClickHouse:
    """A table in the memory of a server of one's own, asked on one thread."""

    def __init__(self, rows):
        self.room = tempfile.mkdtemp()
        with open(f"{self.room}/config.xml", "w") as config:
            config.write(CONFIG.format(port=PORT, room=self.room))
        words = ["clickhouse-server", f"--config-file={self.room}/config.xml"]
        self.server = subprocess.Popen(words, stdout=subprocess.DEVNULL, stderr=subprocess.DEVNULL)
        for _ in range(100):
            if self.client("select 1", check=False).returncode == 0:
                break
            time.sleep(0.1)
        numbers = ", ".join(f"f{i} Nullable(Int32)" for i in range(4))
        self.client(f"create table t ({numbers}, k Int32, s Nullable(String)) engine = Memory")
        lines = "".join("\t".join("\\N" if it is None else str(it) for it in row) + "\n" for row in rows.rows())
        self.client("insert into t format TabSeparated", given=lines)

    def client(self, query, given=None, check=True):
        words = ["clickhouse-client", f"--port={PORT}", "--host=127.0.0.1", "--time", f"--query={query}"]
        return subprocess.run(words, input=given, capture_output=True, text=True, check=check)

    def sum(self, text):
        return int(self.client(f"select sum({text}) from t").stdout)

    def seconds(self, text):
        times = [float(self.client(f"select {text} from t format Null").stderr) for _ in range(READINGS)]
        return statistics.median(times)

    def close(self):
        self.server.terminate()
        self.server.wait()
        shutil.rmtree(self.room, ignore_errors=True)


def line(rows, engines, query):
    name, in_numpy, in_numexpr, text = query
    wanted = sum_of(*in_numpy(rows))
    cells = [reading(lambda: in_numpy(rows))]
    is_there = numexpr is not None and in_numexpr is not None
    cells.append(reading(by_numexpr(rows, in_numexpr)) if is_there else None)
    for engine in engines:
        if engine and engine.sum(text) != wanted:
            sys.exit(f"{name}: {type(engine).__name__} has {engine.sum(text)}, and not {wanted}")
        cells.append(engine.seconds(text) if engine else None)
    shown = ["" if it is None else f"{it * 1e9 / rows.count:.2f}" for it in cells]
    return f"| {name} | {rows.count} | {' | '.join(shown)} |"


def main():
    print("| Query | Rows | numpy (ns a row) | numexpr (ns a row) | SQLite (ns a row) | ClickHouse (ns a row) |")
    print("|---|---:|---:|---:|---:|---:|")
    for count in [int(word) for word in sys.argv[1:]] or [1_000_000]:
        rows = Rows(count)
        engines = [Sqlite(rows), ClickHouse(rows) if shutil.which("clickhouse-server") else None]
        try:
            for query in QUERIES:
                print(line(rows, engines, query), flush=True)
        finally:
            for engine in filter(None, engines):
                engine.close()


if __name__ == "__main__":
    main()
