"""Floating-point numbers, in and out: what is expected of their order and their sums is IEEE 754's."""

import array
import ctypes
import decimal
import itertools
import math
import operator
import pathlib
import struct
import sys
import unittest

sys.path.insert(0, str(pathlib.Path(__file__).parents[1]))

import vx  # noqa: E402
from vx._batches import batch_of  # noqa: E402
from vx._types import type_of  # noqa: E402

try:
    import numpy as np
except ImportError:
    np = None

IN_ORDER = {
    "f64": [-math.inf, -1e300, -1.5, -5e-324, -0.0, 0.0, 5e-324, 0.1, 9.99, 2.0**53, 1e300, math.inf, math.nan],
    "f32": [-math.inf, -3e38, -1.5, -(2.0**-149), -0.0, 0.0, 2.0**-149, 0.5, 9.75, 2.0**24, 3e37, math.inf, math.nan],
}
"""Numbers in the total order: -0 before 0, and NaN last."""


def single(number):
    """The nearest number of 32 bits."""
    return struct.unpack("<f", struct.pack("<f", number))[0]


def told(values):
    """The bits of numbers, of which there is one NaN; anything else as it is."""
    return [struct.pack("<d", value) if isinstance(value, float) else value for value in values]


class Values(unittest.TestCase):
    def test_rows_come_out_as_they_went_in(self) -> None:
        for kind, numbers in IN_ORDER.items():
            schema, column = f"{{x={kind}?}}", [*map(single, numbers), None] if kind == "f32" else [*numbers, None]
            rows = [{"x": number} for number in column]
            self.assertEqual(told(vx.evaluate("x", rows, schema)), told(column))
            with vx.Plan("x", schema) as plan:
                for batch in (rows, {"x": column}):
                    self.assertEqual(told(plan.scan(batch)), told(column))
                self.assertEqual(plan.type, f"{kind}?")

    def test_the_nearest_number_is_taken(self) -> None:
        for number in (0.1, 9.99, 16777217.0, 16777219.0, 1e-46, 3.4028235e38):
            with self.subTest(number=number), vx.Plan("$", "f32") as plan:
                self.assertEqual(told(plan.scan([number])), told([single(number)]))
                self.assertEqual(told(vx.evaluate("$", [number], "f32")), told([single(number)]))

    def test_whole_numbers(self) -> None:
        with vx.Plan("$", "f64") as plan:
            self.assertEqual(told(plan.scan([0, -7, 2**53, 2**60])), told([0.0, -7.0, 2.0**53, 2.0**60]))
        self.assertEqual(told(vx.evaluate("$", [0, -7, 2**53], "f64")), told([0.0, -7.0, 2.0**53]))

    def test_the_total_order(self) -> None:
        signs = {"<": operator.lt, "<=": operator.le, "=": operator.eq, ">=": operator.ge, ">": operator.gt}
        for (kind, numbers), (sign, holds) in itertools.product(IN_ORDER.items(), signs.items()):
            pairs = list(itertools.product(range(len(numbers)), repeat=2))
            columns = {"x": [numbers[i] for i, _ in pairs], "y": [numbers[j] for _, j in pairs]}
            with self.subTest(kind, sign=sign), vx.Plan(f"x {sign} y", f"{{x={kind}, y={kind}}}") as plan:
                self.assertEqual(plan.select(columns).tolist(), [holds(i, j) for i, j in pairs])

    def test_ranges(self) -> None:
        for expression, wanted in (
            ("x >= 0.0 and x <= 9.99", [False, True, True, False, False, None]),
            ("x > 9.99", [False, False, False, True, True, None]),
            ("x < 0.0", [True, False, False, False, False, None]),
        ):
            with self.subTest(expression), vx.Plan(expression, "{x=f64?}") as plan:
                batch = {"x": [-0.0, 0.0, 9.99, math.inf, math.nan, None]}
                self.assertEqual(plan.scan(batch), wanted)
                self.assertEqual(plan.select(batch).tolist(), [it is True for it in wanted])

    def test_sums(self) -> None:
        pairs = [(0.1, 0.2), (1e308, 1e308), (math.inf, -math.inf), (-0.0, -0.0), (-0.0, 0.0), (2.0**53, 1.0)]
        wanted = [0.1 + 0.2, math.inf, math.nan, -0.0, 0.0, 2.0**53]
        rows = [{"x": x, "y": y} for x, y in pairs]
        with vx.Plan("x + y", "{x=f64, y=f64?}") as plan:
            self.assertEqual(told(plan.scan(rows)), told(wanted))
            self.assertEqual(told(plan.scan([{"x": 1.0, "y": None}])), [None])
        with vx.Plan("x + y", "{x=f32, y=f32}") as plan:
            self.assertEqual(plan.scan([{"x": 2.0**24, "y": 1.0}, {"x": 2.0**24, "y": 3.0}]), [2.0**24, 2.0**24 + 4])

    def test_what_is_none_of_the_type(self) -> None:
        for kind, value in (
            ("f64", None),
            ("f64", True),
            ("f64", "1.5"),
            ("f64", decimal.Decimal("1.5")),
            ("f64", 2**53 + 1),
            ("f64", 10**400),
            ("f32", 2**24 + 1),
            ("f32", 1e39),
            ("f32", float(2**128 - 2**103)),
            ("i32", 1.0),
            ("decimal(4, 2)", 1.5),
        ):
            with self.subTest(kind, value=value), vx.Plan("x", f"{{x={kind}}}") as plan:
                with self.assertRaises(vx.DataError) as caught:
                    plan.scan({"x": [0, value]})
                self.assertEqual(caught.exception.place.record, 2)

    def test_statistics(self) -> None:
        for least, greatest, wanted in (
            (1.5, 9.75, vx.Verdict.NO_ROW),
            (1.5, math.inf, vx.Verdict.TO_BE_READ),
            (1.5, math.nan, vx.Verdict.TO_BE_READ),
            (10.0, math.nan, vx.Verdict.EVERY_ROW),
            (math.nan, math.nan, vx.Verdict.EVERY_ROW),
        ):
            chunk = vx.statistics(3, x={"nulls": 0, "least": least, "greatest": greatest})
            with self.subTest(least=least, greatest=greatest):
                self.assertEqual(vx.prune("x > 9.99", [chunk], "{x=f64}"), [wanted])


class Buffers(unittest.TestCase):
    def test_what_has_the_buffer_protocol_is_lent(self) -> None:
        numbers = array.array("d", [9.99, -0.0, math.inf])
        validity, lent = batch_of(numbers, type_of("f64"))[1]
        self.assertEqual((validity, ctypes.addressof(lent)), (b"", numbers.buffer_info()[0]))
        lent = batch_of({"x": memoryview(numbers)[1:]}, type_of("{x=f64?}"))[1][2]
        self.assertEqual((ctypes.addressof(lent), len(lent)), (numbers.buffer_info()[0] + 8, 16))

    def test_scans(self) -> None:
        numbers = [9.99, -0.0, math.inf, math.nan]
        apart = array.array("d", [number for number in numbers for _ in range(2)])
        for kind, column in (
            ("f64", array.array("d", numbers)),
            ("f64", (ctypes.c_double * 4)(*numbers)),
            ("f64", memoryview(struct.pack("4d", *numbers)).cast("d")),
            ("f32", array.array("f", numbers)),
            ("f32", (ctypes.c_float * 4)(*numbers)),
            ("f32", memoryview(struct.pack("4f", *numbers)).cast("f")),
            # of another type, or with other bytes between them
            ("f64", array.array("f", numbers)),
            ("f64", memoryview(apart)[::2]),
        ):
            with self.subTest(kind, column=column), vx.Plan("x > 10.0", f"{{x={kind}?}}") as plan:
                self.assertEqual(plan.select({"x": column}).tolist(), [False, False, True, True])
            with self.subTest(kind, column=column), vx.Plan("$ > 10.0", kind) as plan:
                self.assertEqual(plan.select(column).tolist(), [False, False, True, True])
        with vx.Plan("$ + 1", "i64") as plan:
            self.assertEqual(plan.scan(array.array("q", [1, -5])), [2, -4])
            self.assertEqual(plan.scan(array.array("i", [1, -5])), [2, -4])
            self.assertEqual(plan.scan(array.array("q")), [])


def keys(numbers):
    """Where 64 bits stand in the total order, of which there is one NaN."""
    bits = np.where(np.isnan(numbers), np.float64(math.nan), numbers).view(np.uint64)
    return np.where(bits >> np.uint64(63), ~bits, bits | np.uint64(1 << 63))


@unittest.skipUnless(np, "numpy isn't installed")
class Arrays(unittest.TestCase):
    def test_as_lists(self) -> None:
        """An array has the buffers of the list of its values."""
        masked = np.ma.masked_array
        for schema, column in (
            ("f64", np.array(IN_ORDER["f64"])),
            ("f32", np.array(IN_ORDER["f32"], np.float32)),
            ("f64?", masked(np.array([1.5, 2.5]))),
            # other widths, orders of bytes and strides
            ("f32", np.array([0.1, -0.0, math.nan, 16777217.0])),
            ("f64", np.array([0.1, math.inf], np.float32)),
            ("f64", np.array([0.1, 65504.0], np.float16)),
            ("f64", np.array([1.5, -0.0], ">f8")),
            ("f32", np.arange(10, dtype=np.float32)[::3]),
            ("f64", np.array([1, -2**53])),
            ("f32", np.array([2**24, 0], np.uint64)),
            ("f64?", masked(np.array([3, 4]))),
            ("f64", np.array([], np.float64)),
        ):
            with self.subTest(schema, column=column):
                (rows, lent), (count, wanted) = (batch_of(it, type_of(schema)) for it in (column, column.tolist()))
                self.assertEqual((rows, [bytes(it) for it in lent]), (count, [bytes(it) for it in wanted]))

    def test_lent(self) -> None:
        for kind in ("f32", "f64"):
            column = np.arange(5, dtype=f"<f{int(kind[1:]) // 8}")
            self.assertTrue(np.shares_memory(batch_of({"x": column}, type_of(f"{{x={kind}}}"))[1][2], column))

    def test_of_another_type(self) -> None:
        masked = np.ma.masked_array
        for schema, column, record in (
            ("f32", np.array([1.0, 1e300]), 2),
            ("f64", np.array([1.5], np.longdouble), 1),
            ("f64", np.array([True]), 1),
            ("f64", np.array([2**53, 2**53 + 1]), 2),
            ("f32", np.array([0, -(2**24) - 1]), 2),
            ("f64", np.array([0, 2**64 - 1], np.uint64), 2),
            ("f64", masked(np.array([1.0, 2.0]), [False, True]), 2),
            ("i64", np.array([1.0]), 1),
        ):
            with self.subTest(schema, column=column), self.assertRaises(vx.DataError) as caught:
                batch_of(column, type_of(schema))
            self.assertEqual(caught.exception.place.record, record)
        hidden = masked(np.array([1e300, 1.0]), [True, False])
        self.assertEqual(bytes(batch_of(hidden, type_of("f32?"))[1][1])[4:], struct.pack("<f", 1.0))

    def test_columns(self) -> None:
        numbers = np.array([9.99, -0.0, math.nan, math.inf, 1.0] * 9)
        numbers = np.ma.masked_array(numbers, np.arange(45) % 7 == 4)
        for kind in ("f32", "f64"):
            letters = f"<f{int(kind[1:]) // 8}"
            column = numbers.astype(letters)
            with vx.Plan("x", f"{{x={kind}?}}") as plan:
                found = plan.scan_numpy({"x": column})
                self.assertEqual((found.dtype, found.mask.tolist()), (np.dtype(letters), numbers.mask.tolist()))
                self.assertEqual(told(found.tolist()), told(column.tolist()))
                self.assertEqual(told(plan.scan({"x": column})), told(column.tolist()))
            with vx.Plan("x + x", f"{{x={kind}}}") as plan:
                found, wanted = plan.scan_numpy({"x": column.data}), column.data + column.data
                self.assertEqual(told(found.tolist()), told(wanted.tolist()))

    def test_records(self) -> None:
        records = np.array([(9.5, 0.5), (math.nan, -0.0)], [("x", "<f8"), ("y", "<f4")])
        with vx.Plan("x > 9.0 and y < 0.0", "{x=f64, y=f32}") as plan:
            self.assertEqual(plan.select(records).tolist(), [False, True])
        self.assertEqual(told(vx.evaluate("y", records, "{x=f64, y=f32}")), told([0.5, -0.0]))
        rows = [{"x": np.float64(1.5), "y": np.float32(0.1)}]
        with vx.Plan("y", "{x=f64, y=f32}") as plan:
            self.assertEqual(plan.scan(rows), [single(0.1)])

    def test_any_bits(self) -> None:
        """Ranges and columns of any numbers, of NaNs with other bits, too."""
        random = np.random.default_rng(1)
        numbers = random.integers(0, 2**64, 100_000, np.uint64).view(np.float64)
        numbers[::7] = np.array(IN_ORDER["f64"])[random.integers(0, len(IN_ORDER["f64"]), len(numbers[::7]))]
        numbers.view(np.uint64)[::11] |= np.uint64(0x7FF << 52)
        with vx.Plan("x >= y and x <= z", "{x=f64, y=f64, z=f64}") as plan:
            least, greatest = np.roll(numbers, 1), np.roll(numbers, 2)
            found = np.asarray(plan.select({"x": numbers, "y": least, "z": greatest}))
            wanted = (keys(numbers) >= keys(least)) & (keys(numbers) <= keys(greatest))
            self.assertTrue((found == wanted).all())
        with vx.Plan('x >= "-0.0"::f64 and x <= "9.99"::f64', "{x=f64}") as plan:
            found = np.asarray(plan.select({"x": numbers}))
            wanted = (keys(numbers) >= keys(np.array([-0.0]))) & (keys(numbers) <= keys(np.array([9.99])))
            self.assertTrue((found == wanted).all())
        with vx.Plan("x", "{x=f64}") as plan:
            self.assertTrue((keys(plan.scan_numpy({"x": numbers})) == keys(numbers)).all())
            some = numbers[:5000]
            self.assertTrue((keys(np.array(plan.scan({"x": some}))) == keys(some)).all())
        with vx.Plan("x", "{x=f32}") as plan:
            some = random.integers(0, 2**32, 5000, np.uint64).astype(np.uint32).view(np.float32)
            with np.errstate(all="ignore"):
                wanted = some.astype(np.float64)
            self.assertTrue((keys(np.array(plan.scan({"x": some}))) == keys(wanted)).all())


if __name__ == "__main__":
    unittest.main()
