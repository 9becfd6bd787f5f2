"""Nanoseconds a row of a range over a million whole and floating-point numbers: of a column by Arrow's PyCapsule
interface, of numpy's array, and of numpy's own comparisons; and of values and rows as numpy's arrays.

    speed.py TURNS
"""

from __future__ import annotations

import pathlib
import sys
import time
from typing import Callable

sys.path.insert(0, str(pathlib.Path(__file__).parents[1] / "python/tests"))

import numpy as np  # noqa: E402
from columns import Column, record_batch  # noqa: E402

import vx  # noqa: E402

ROWS = 1_000_000


def timed(what: str, turns: int, work: Callable[[], object]) -> None:
    best = []
    for _ in range(turns):
        start = time.process_time()
        work()
        best.append(time.process_time() - start)
    print(f"{what}: {1e9 * min(best) / ROWS:.2f} nanoseconds a row")


def whole_numbers(turns: int) -> None:
    x = (np.arange(ROWS, dtype=np.int64) * 2654435761 % 1_000_000).astype(np.int32)
    valid = np.arange(ROWS) % 7 != 0
    bits = np.packbits(valid, bitorder="little")
    batch = record_batch(ROWS, x=Column("i", ROWS, [bits, x]))
    masked = np.ma.masked_array(x, ~valid)
    with vx.Plan("x >= 10 and x <= 500000", "{x=i32?}") as plan:
        wanted = valid & (x >= 10) & (x <= 500_000)
        assert (np.asarray(plan.select(batch)) == wanted).all()
        timed("Plan.select of a capsule", turns, lambda: plan.select(batch))
        timed("Plan.select of a masked array", turns, lambda: plan.select({"x": masked}))
        timed("Plan.select of an array without nulls", turns, lambda: plan.select({"x": x}))
    timed("numpy, (x >= a) & (x <= b)", turns, lambda: (x >= 10) & (x <= 500_000))
    timed("numpy, valid & (x >= a) & (x <= b)", turns, lambda: valid & (x >= 10) & (x <= 500_000))


def floats(turns: int) -> None:
    f = np.arange(ROWS) * 2654435761 % 1_000_000 / 8.0
    for letters, column in (("f64", f), ("f32", f.astype(np.float32))):
        with vx.Plan("f >= 10.5 and f <= 62500.0", f"{{f={letters}}}") as plan:
            wanted = (column >= 10.5) & (column <= 62500.0)
            assert (np.asarray(plan.select({"f": column})) == wanted).all()
            assert (plan.filter_numpy({"f": column})["f"] == column[wanted]).all()
            timed(f"{letters}: Plan.select of an array", turns, lambda: plan.select({"f": column}))
            timed(f"{letters}: Plan.filter_numpy of an array", turns, lambda: plan.filter_numpy({"f": column}))
        timed(f"{letters}: numpy, (f >= a) & (f <= b)", turns, lambda: (column >= 10.5) & (column <= 62500.0))
        timed(f"{letters}: numpy, f[(f >= a) & (f <= b)]", turns, lambda: column[(column >= 10.5) & (column <= 62500.0)])
        with vx.Plan("f + f", f"{{f={letters}}}") as plan:
            assert (plan.scan_numpy({"f": column}) == column + column).all()
            timed(f"{letters}: Plan.scan_numpy of a sum", turns, lambda: plan.scan_numpy({"f": column}))
        timed(f"{letters}: numpy, f + f", turns, lambda: column + column)


def main(turns: int) -> None:
    whole_numbers(turns)
    floats(turns)


if __name__ == "__main__":
    main(int(sys.argv[1]))
