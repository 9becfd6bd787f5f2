"""Tests of numpy's arrays and numbers, where numpy is installed."""

import pathlib
import sys
import unittest

sys.path.insert(0, str(pathlib.Path(__file__).parents[1]))

import vx  # noqa: E402
from vx._batches import batch_of  # noqa: E402
from vx._types import type_of  # noqa: E402

try:
    import numpy as np
except ImportError:
    np = None

ROWS = "{x=i32?, b=bool?, s=utf8?}"


def bytes_of(batch):
    """The number of rows, and the bytes of each buffer."""
    count, buffers = batch
    return count, [bytes(buffer) for buffer in buffers]


@unittest.skipUnless(np, "numpy isn't installed")
class Arrays(unittest.TestCase):
    def test_as_lists(self):
        """An array has the buffers of the list of its values."""
        masked = np.ma.masked_array
        for schema, array in [
            ("i32", np.array([1, -5, 2**31 - 1], np.int32)),
            ("i32?", masked(np.array([1, 2, 3], np.int32), [False, True, False])),
            ("i32?", masked(np.array([1, 2], np.int32))),
            # other widths, orders of bytes and strides
            ("i16", np.array([1, -300], np.int64)),
            ("u64", np.array([0, 5], np.int8)),
            ("u8", np.array([255], np.uint64)),
            ("i32", np.array([1, 2], ">i4")),
            ("i32", np.arange(10, dtype=np.int32)[::3]),
            ("u16?", masked(np.array([-1, 7]), [True, False])),
            ("bool", np.array([i % 3 == 0 for i in range(19)])),
            ("bool?", masked(np.array([True, True]), [True, False])),
            ("utf8", np.array(["a", "", "b\0c", "\u00e4\U0001f600"])),
            ("utf8?", np.array(["abc", "de"] * 5)[::3]),
            ("utf8", np.array([], "U3")),
            ("binary", np.array([b"a\xff", b"", b"\0b"])),
            ("list(i8)", np.array([[1, 2], [3, 4]])),
            ("list(f64)?", np.zeros((2, 0))),
            ("list(utf8)", np.array([["a", "bc"], ["", "d"]])),
            ("fixed_size_list(i8)[2]", np.array([[1, 2], [3, 4], [5, 6]]).T[:, :2]),
            ("fixed_size_list(f32)[3]", np.arange(6, dtype=np.float32).reshape(2, 3)),
            ("list(list(i8))", np.array([[[1, 2], [3, 4]]])),
            ("i64", np.array([], np.int64)),
        ]:
            with self.subTest(schema, array=array):
                dtype = type_of(schema)
                count, buffers = bytes_of(batch_of(array, dtype))
                wanted = bytes_of(batch_of(array.tolist(), dtype))
                if np.ma.isMaskedArray(array) and array.mask.any():
                    # (what a null hides is left as it lies)
                    self.assertEqual((count, buffers[0]), (wanted[0], wanted[1][0]))
                    self.assertEqual(len(buffers[1]), len(wanted[1][1]))
                else:
                    self.assertEqual((count, buffers), wanted)

    def test_lent(self):
        column = np.arange(5, dtype=np.int32)
        buffer = batch_of({"x": column}, type_of("{x=i32}"))[1][2]
        self.assertTrue(np.shares_memory(buffer, column))
        rows = np.arange(6, dtype=np.float32).reshape(2, 3)
        buffer = batch_of({"x": rows}, type_of("{x=fixed_size_list(f32)[3]}"))[1][3]
        self.assertTrue(np.shares_memory(buffer, rows))

    def test_of_another_type(self):
        masked = np.ma.masked_array
        for schema, array, record in [
            ("i8", np.array([127, 128]), 2),
            ("u8", np.array([-1]), 1),
            ("i64", np.array([0, 2**63], np.uint64), 2),
            ("i32", np.array([1.0]), 1),
            ("i32", np.array([True]), 1),
            ("bool", np.array([1]), 1),
            ("i32", masked(np.array([1, 2], np.int32), [False, True]), 2),
            ("i32", np.array([[1]]), 1),
            ("utf8", np.array([b"a"]), 1),
            ("i64", np.array([5], "m8[ns]"), 1),
            ("utf8", masked(np.array(["a", "b"]), [False, True]), 2),
            ("fixed_size_list(i8)[3]", np.array([[1, 2]]), 1),
            ("list(i8)", np.array([[1, 2], [3, 128]]), 2),
        ]:
            with self.subTest(schema, array=array), self.assertRaises(vx.DataError) as caught:
                batch_of(array, type_of(schema))
            self.assertEqual((caught.exception.place.text, caught.exception.place.record), ("records", record))

    def test_scans(self):
        columns = {
            "x": np.ma.masked_array(np.array([1, 2, 7]), [False, True, False]),
            "b": np.array([True, True, False]),
            "s": np.array(["a", "b", "c"]),
        }
        with vx.Plan("x > 5 or b", ROWS) as plan:
            self.assertEqual(plan.scan(columns), [True, True, True])
            self.assertEqual(plan.scan({"x": np.int64(9) + np.arange(3)}), [True, True, True])
        with vx.Plan("$ + 1", "i64") as plan:
            self.assertEqual(plan.scan(np.arange(3)), [1, 2, 3])
        records = np.array([(1, True), (2, False)], [("x", "<i4"), ("b", "?")])
        with vx.Plan("x > 1 and not b", ROWS) as plan:
            self.assertEqual(plan.scan(records), [False, True])
        self.assertEqual(vx.evaluate("x + 1", records, "{x=i32, b=bool}"), [2, 3])
        self.assertEqual(vx.evaluate("x + 1", {"x": columns["x"]}, "{x=i32?}"), [2, None, 8])

    def test_columns(self):
        """What is answered as an array is what is answered as a list."""
        columns = {
            "x": np.ma.masked_array(np.array([1, 2, 7] * 9, np.int32), [False, True, False] * 9),
            "b": np.arange(27) % 5 != 0,
        }
        for expression, letters in [
            ("x + 1", "<i4"),
            ("x > 1", "?"),
            ("b", "?"),
            ("x is null", "?"),
            ("case when b then 1u8 else 2u8 end", "u1"),
            ("9i64", "<i8"),
        ]:
            with self.subTest(expression), vx.Plan(expression, ROWS) as plan:
                found = plan.scan_numpy(columns)
                self.assertEqual((found.tolist(), found.dtype), (plan.scan(columns), np.dtype(letters)))
                self.assertEqual(plan.scan_numpy([]).tolist(), [])
        with vx.Plan("s", ROWS) as plan:
            self.assertRaises(TypeError, plan.scan_numpy, columns)
        with vx.Plan("x + 1", "{x=i32}") as plan, self.assertRaises(vx.FaultError):
            plan.scan_numpy({"x": np.array([1, 2**31 - 1])})
        self.assertRaises(vx.NoPlanError, plan.scan_numpy, {"x": np.array([1])})

    def test_filtered_rows(self):
        """The rows are those that numpy's own selection has."""
        random = np.random.default_rng(1)
        for rows in (0, 1, 1000):
            x = np.ma.masked_array(random.integers(-9, 9, rows, np.int32), random.integers(0, 4, rows) == 0)
            f = random.integers(-9, 9, rows) / np.float64(4)
            b = random.integers(0, 2, rows, np.int8) == 0
            d = random.integers(-9, 9, rows).astype("M8[D]")
            t = random.integers(-9, 9, rows).astype("M8[us]")
            columns = {"x": x, "f": f, "b": b, "d": d, "t": t}
            with vx.Plan("x > 0 and f < 1.5 or b", "{x=i32?, f=f64, b=bool, d=date, t=timestamp(us)}") as plan:
                found = plan.filter_numpy(columns)
                shown = np.asarray(plan.select(columns))
                self.assertTrue((shown == (((x > 0) & (f < 1.5)).filled(False) | b)).all())
                self.assertEqual(list(found), list(columns))
                for name, column in columns.items():
                    self.assertEqual((found[name].dtype, found[name].tolist()), (column.dtype, column[shown].tolist()))
                self.assertEqual(list(plan.filter_numpy(columns, ["t", "x"])), ["x", "t"])
                self.assertRaises(KeyError, plan.filter_numpy, columns, ["y"])

    def test_filtered_rows_of_other_types(self):
        rows = [{"a": {"x": 1, "y": None}, "s": "a"}, {"a": None, "s": "b"}, {"a": {"x": 3, "y": 4}, "s": "c"}]
        with vx.Plan("s > 'a'", "{a={x=i8, y=i16?}?, s=utf8}") as plan:
            self.assertRaises(TypeError, plan.filter_numpy, rows)
            found = plan.filter_numpy(rows, ["a"])["a"]
            self.assertEqual((found["x"].tolist(), found["y"].tolist()), ([None, 3], [None, 4]))
        with vx.Plan("$ > 1", "i64?") as plan:
            self.assertEqual(plan.filter_numpy(np.arange(4)).tolist(), [2, 3])
            self.assertEqual(plan.filter_numpy([None, 1, 7]).tolist(), [7])
        with vx.Plan("pack(y: x + 1, z: x > 1)", "{x=i64}") as plan:
            found = plan.scan_numpy({"x": np.arange(3)})
            self.assertEqual({name: it.tolist() for name, it in found.items()}, {"y": [1, 2, 3], "z": [False, False, True]})
        with vx.Plan("x + 1", "{x=i64}") as plan:
            self.assertRaises(vx.RefusedError, plan.filter_numpy, {"x": np.arange(3)})
        self.assertRaises(vx.NoPlanError, plan.filter_numpy, {"x": np.arange(3)})

    def test_selections(self):
        numbers = np.arange(-5000, 5000, dtype=np.int32)
        with vx.Plan("x >= 10 and x <= 4000", "{x=i32}") as plan:
            found = np.asarray(plan.select({"x": numbers}))
        self.assertTrue((found == ((numbers >= 10) & (numbers <= 4000))).all())

    def test_numbers(self):
        """A number of numpy's is taken wherever one of Python's is."""
        for schema, value in [
            ("f64", np.int64(-(2**53))),
            ("f32?", np.uint8(7)),
            ("decimal(38, 2)", np.int64(2**62)),
            ("date", np.int16(-1)),
            ("timestamp(ns)", np.uint64(5)),
            ("list(i8)", [np.int64(1), np.uint8(2)]),
        ]:
            plainer = [int(it) for it in value] if isinstance(value, list) else int(value)
            with self.subTest(schema), vx.Plan("$", schema) as plan:
                self.assertEqual(plan.scan([value]), plan.scan([plainer]))
        rows = [{"x": np.int8(1), "b": np.bool_(True)}, {"x": np.uint64(7), "b": None}]
        with vx.Plan("x", ROWS) as plan:
            self.assertEqual(plan.scan(rows), [1, 7])
        self.assertEqual(vx.evaluate("x", rows, ROWS), [1, 7])
        chunk = vx.statistics(np.int64(3), x={"least": np.int16(1), "greatest": np.int64(5)})
        self.assertEqual(vx.prune("x > 5", [chunk], "{x=i32}"), [vx.Verdict.NO_ROW])


if __name__ == "__main__":
    unittest.main()
