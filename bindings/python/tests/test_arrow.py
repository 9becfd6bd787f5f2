"""Tests of Arrow's tables and arrays, where pyarrow is installed."""

import math
import pathlib
import sys
import unittest

sys.path.insert(0, str(pathlib.Path(__file__).parents[1]))

import vx  # noqa: E402

try:
    import pyarrow as pa
except ImportError:
    pa = None


@unittest.skipUnless(pa, "pyarrow isn't installed")
class Arrow(unittest.TestCase):
    def test_tables(self):
        table = pa.table({"x": pa.array([1, None, 7], pa.int32()), "s": ["a", "b", None]})
        answer = vx.evaluate("x + 1", table)
        self.assertEqual((answer.type, answer.to_pylist()), (pa.int32(), [2, None, 8]))
        self.assertEqual(vx.evaluate("s", table).to_pylist(), ["a", "b", None])
        self.assertEqual(vx.prune("x > 7", table), [vx.Verdict.NO_ROW])
        self.assertEqual(vx.prune("x > 6", [table, table.slice(0, 1)]), [vx.Verdict.TO_BE_READ, vx.Verdict.NO_ROW])

    def test_types(self):
        inner = pa.struct([pa.field("b", pa.binary(), False), pa.field("l", pa.list_(pa.uint8(), 2))])
        table = pa.table({"a": pa.array([{"b": b"\x01", "l": [1, 2]}, None], inner)})
        answer = vx.evaluate("a", table)
        self.assertEqual(answer.to_pylist(), table.column("a").to_pylist())
        with self.assertRaises(TypeError):
            vx.evaluate("x", pa.table({"x": pa.array([1], pa.time32("s"))}))

    def test_floats(self):
        numbers = [1.5, None, -0.0, math.nan, math.inf]
        for dtype in (pa.float64(), pa.float32()):
            table = pa.table({"x": pa.array(numbers, dtype)})
            answer = vx.evaluate("x", table)
            self.assertEqual((answer.type, repr(answer.to_pylist())), (dtype, repr(numbers)))
            self.assertEqual(vx.evaluate("x > 1.0", table).to_pylist(), [True, None, False, True, True])
            self.assertEqual(vx.prune("x > 9.5", table.slice(0, 3)), [vx.Verdict.NO_ROW])
            self.assertEqual(vx.prune("x > 9.5", table.slice(0, 4)), [vx.Verdict.TO_BE_READ])
            zeros = [pa.table({"x": pa.array(pair, dtype)}) for pair in ([0.0, -0.0], [-0.0, 0.0])]
            for expression in ("x < 0.0", "x >= 0.0"):
                self.assertEqual(vx.prune(expression, zeros), [vx.Verdict.TO_BE_READ] * 2)

    def test_scans(self):
        table = pa.table({"s": ["a", None, "b"], "x": pa.array([1, None, 7], pa.int32())})
        with vx.Plan("x + 1", "{x=i32?, s=utf8?}") as plan:
            for batch in (table, table.to_batches()[0], table.to_batches()[0].to_struct_array()):
                answer = plan.scan(batch)
                self.assertEqual((answer.type, answer.to_pylist()), (pa.int32(), [2, None, 8]))
            self.assertEqual(plan.scan(pa.concat_tables([table, table])).to_pylist(), [2, None, 8] * 2)
            self.assertEqual(plan.scan(table.slice(0, 0)).to_pylist(), [])
            self.assertEqual(plan.scan(table.select(["x"])).to_pylist(), [2, None, 8])
            for other in (pa.table({"x": [1]}), pa.table({"y": pa.array([1], pa.int32())})):
                with self.assertRaises(vx.DataError):
                    plan.scan(other)

    def test_slices(self):
        inner = pa.struct([("b", pa.bool_()), ("t", pa.string()), ("w", pa.large_string())])
        types = {
            "o": (pa.bool_(), "bool?", [True, None, False]),
            "n": (pa.int64(), "i64?", [1, None, -(2**63)]),
            "p": (pa.float64(), "f64?", [9.99, None, -math.inf]),
            "q": (pa.float32(), "f32?", [0.5, None, math.inf]),
            "t": (pa.string(), "utf8?", ["", None, "\u00e4b"]),
            "y": (pa.binary(), "binary?", [b"", None, b"\xff"]),
            "l": (pa.list_(pa.int8()), "list(i8?)?", [[], None, [1, None, 3]]),
            "g": (pa.large_list(pa.string()), "list(utf8?)?", [["a"], None, ["b", None]]),
            "f": (pa.list_(pa.bool_(), 2), "fixed_size_list(bool?)[2]?", [[True, None], None, [False, True]]),
            "d": (pa.dictionary(pa.int8(), pa.string()), "utf8?", ["a", None, "a"]),
            "s": (inner, "{b=bool?, t=utf8?, w=utf8?}?", [{"b": None, "t": "a", "w": "b"}, None, dict.fromkeys("btw")]),
        }
        for name, (dtype, schema, values) in types.items():
            values = values * 7
            array = pa.array(values, dtype)
            with self.subTest(name), vx.Plan("$", schema) as plan:
                for start in range(len(values)):
                    for length in range(len(values) - start):
                        answer = plan.scan(array.slice(start, length)).to_pylist()
                        self.assertEqual(answer, values[start : start + length])


if __name__ == "__main__":
    unittest.main()
