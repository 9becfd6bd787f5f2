"""Scans a table in chunks for the rows that a filter selects.

    make_chunks.py FOLDER && scan.py FOLDER

Statistics say which chunks need not be read. Of the others only the columns that the filter reads are, on four
threads. scan.cpp is the same in C++, and prints the same.
"""

import pathlib
import sys
from concurrent.futures import ThreadPoolExecutor

import numpy as np
import vx

FILTER = "id >= 700000 or id >= 120000 and price between 9.99 and 499.5 and stock > 5"
TYPES = {"id": "i64", "price": "f64", "stock": "i32?", "note": "utf8?"}
THREADS = 4


def schema_of(names):
    """The type of rows of these columns."""
    return "{" + ", ".join(f"{name}={TYPES[name]}" for name in names) + "}"


def read(folder, chunk, name):
    """A column of the chunk; a null is masked."""
    column = np.load(folder / f"{chunk}.{name}.npy")
    if not TYPES[name].endswith("?"):
        return column
    bits = np.load(folder / f"{chunk}.{name}.valid.npy")
    valid = np.unpackbits(bits, count=len(column), bitorder="little").astype(bool)
    return np.ma.masked_array(column, ~valid)


def select(plan, folder, chunk, names):
    """At which rows of the chunk the filter is true."""
    return np.asarray(plan.select({name: read(folder, chunk, name) for name in names}))


def scan(folder):
    """For each chunk its verdict, and the rows that are selected where it was read."""
    statistics = (folder / "statistics.jsonl").read_text()
    verdicts = vx.prune(FILTER, statistics, schema_of(TYPES))
    names = [path[0] for path in vx.plan(FILTER, schema_of(TYPES)).paths]
    with ThreadPoolExecutor(THREADS) as threads, vx.Plan(FILTER, schema_of(names)) as plan:
        selected = {
            chunk: threads.submit(select, plan, folder, chunk, names)
            for chunk, verdict in enumerate(verdicts)
            if verdict is vx.Verdict.TO_BE_READ
        }
        return [
            (verdict, selected[chunk].result() if chunk in selected else None)
            for chunk, verdict in enumerate(verdicts)
        ]


def by_numpy(folder, chunk):
    """The same of a chunk that is read as a whole, by numpy alone."""
    ids, price, stock = (read(folder, chunk, name) for name in ("id", "price", "stock"))
    is_sold = (ids >= 120_000) & (price >= 9.99) & (price <= 499.5) & (stock > 5)
    return (ids >= 700_000) | is_sold.filled(False)


def main(folder):
    folder = pathlib.Path(folder)
    for chunk, (verdict, selected) in enumerate(scan(folder)):
        wanted = by_numpy(folder, chunk)
        if selected is None:
            assert (wanted == (verdict is vx.Verdict.EVERY_ROW)).all()
            print(f"{chunk}: {verdict.value}")
        else:
            assert (wanted == selected).all()
            print(f"{chunk}: {np.count_nonzero(selected)} rows of {len(selected)}")


if __name__ == "__main__":
    main(sys.argv[1])
