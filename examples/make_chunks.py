"""Makes a table in chunks: of each chunk a file for each column, as numpy has them, and a line of statistics.

    make_chunks.py FOLDER

The statistics are what a writer of chunks keeps: the rows, and of each column its ends and its nulls. The rows
that have a stock are the ones of the bits in stock.valid.npy.
"""

import json
import pathlib
import sys

import numpy as np

CHUNKS, ROWS = 16, 50_000


def statistics_of(column, nulls=0):
    return {"nulls": nulls, "least": column.min().item(), "greatest": column.max().item()}


def main(folder):
    folder = pathlib.Path(folder)
    folder.mkdir(parents=True, exist_ok=True)
    numbers = np.random.default_rng(1)
    lines = []
    for chunk in range(CHUNKS):
        # rows come in the order of their ids, so that the statistics tell much of them
        ids = np.arange(chunk * ROWS, (chunk + 1) * ROWS, dtype=np.int64)
        prices = numbers.integers(0, 10_000 * (1 + chunk), ROWS) / 100
        stocks = numbers.integers(0, 30, ROWS, dtype=np.int32)
        has_stock = numbers.random(ROWS) > 0.1
        bits = np.packbits(has_stock, bitorder="little")
        for name, column in {"id": ids, "price": prices, "stock": stocks, "stock.valid": bits}.items():
            np.save(folder / f"{chunk}.{name}.npy", column)
        fields = {"id": statistics_of(ids), "price": statistics_of(prices)}
        fields["stock"] = statistics_of(stocks[has_stock], int((~has_stock).sum()))
        lines.append(json.dumps({"rows": ROWS, "fields": fields}))
    (folder / "statistics.jsonl").write_text("\n".join(lines) + "\n")


if __name__ == "__main__":
    main(sys.argv[1])
