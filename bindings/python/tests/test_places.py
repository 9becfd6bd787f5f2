"""Tests of which node refuses or faults first, told by its bytes, and in which row."""

import pathlib
import sys
import unittest

sys.path.insert(0, str(pathlib.Path(__file__).parents[1]))

import vx  # noqa: E402
from vx._library import scan_plan  # noqa: E402

SCHEMA = "{x=i32, y=i32?}"
MOST = 2**31 - 1
ROWS = [{"x": 1, "y": 1}, {"x": MOST, "y": None}, {"x": MOST, "y": 3}]

RESULT = "the result is out of range"
NULL = "the null would be made non-null"
FILL = "a fill that is null, not one value, or of an unsupported type"


class Refusals(unittest.TestCase):
    def test_none(self):
        self.assertEqual(vx.check("x > 5", SCHEMA), "bool")

    def test_the_first(self):
        for expression, start, end, message in [
            ("vortex.not[]()", 0, 14, "1 children are needed, and 0 given"),
            ("is_null(vortex.not(vortex.not[]()))", 19, 33, "1 children are needed, and 0 given"),
            ("x = vortex.not(x)", 4, 17, "a truth type is needed"),
            ("x = is_null(y)", 0, 14, "types differ in more than nullability"),
            ("is_null(vortex.not(x)) and z", 8, 21, "a truth type is needed"),
            ("z and is_null(vortex.not(x))", 0, 1, "no such field: z"),
        ]:
            for call in (vx.check, vx.Plan):
                with self.subTest(expression, call=call):
                    with self.assertRaises(vx.RefusedError) as caught:
                        call(expression, SCHEMA)
                    place = caught.exception.place
                    self.assertEqual((place.text, place.start, place.end), ("expression", start, end))
                    self.assertIsNone(place.record)
                    self.assertTrue(str(caught.exception).startswith(f"error: {message}\n"))


class Faults(unittest.TestCase):
    def test_none(self):
        for expression, rows, wanted in [("x > y", ROWS, [False, None, True]), ("x + 1 + 1", [], [])]:
            with self.subTest(expression), vx.Plan(expression, SCHEMA) as plan:
                self.assertEqual(plan.scan(rows), wanted)
                self.assertEqual(vx.evaluate(expression, rows, SCHEMA), wanted)

    def test_the_first(self):
        for expression, rows, start, end, record, message in [
            ("x + 1 > 5", ROWS, 0, 5, 2, RESULT),
            ("x + 0 + 1", ROWS, 0, 9, 2, RESULT),
            ("x + 0 > x + 1", ROWS, 8, 13, 2, RESULT),
            ("is_null(y::i32)", ROWS, 8, 14, 2, NULL),
            ("is_null(coalesce(y, null::i32?))", ROWS, 8, 31, None, FILL),
            ("coalesce($, $)", [], 0, 14, None, FILL),
            # the node's children have columns that are no columns of the rows
            ("vortex.not(is_null(coalesce(y, 7) + x))", ROWS, 19, 37, 2, RESULT),
            # the right child faults in an earlier row
            ("x + y = y::i32", ROWS, 0, 5, 3, RESULT),
        ]:
            with self.subTest(expression):
                with self.assertRaises(vx.FaultError) as caught:
                    vx.evaluate(expression, rows, SCHEMA)
                self.assert_is_at(caught.exception, start, end, record, message)

    def test_the_first_of_a_scan(self):
        """A plan may leave out a node that faults, where its value isn't asked for."""
        for expression, schema, rows, start, end, record, message in [
            ("x + 1 > 5", SCHEMA, ROWS, 0, 5, 2, RESULT),
            ("x + 0 + 1", SCHEMA, ROWS, 0, 9, 2, RESULT),
            ("x + 0 > x + 1", SCHEMA, ROWS, 8, 13, 2, RESULT),
            ("y::i32 > 5", SCHEMA, ROWS, 0, 6, 2, NULL),
            ("is_null(coalesce(y, null::i32?))", SCHEMA, ROWS, 8, 31, None, FILL),
            ("coalesce($, $)", SCHEMA + "?", [], 0, 14, None, FILL),
            ("vortex.not(coalesce(y, 7) + x > 5)", SCHEMA, ROWS, 11, 29, 2, RESULT),
            ("x + y = y::i32", SCHEMA, ROWS, 0, 5, 3, RESULT),
        ]:
            with self.subTest(expression), vx.Plan(expression, schema) as plan:
                with self.assertRaises(vx.FaultError) as caught:
                    plan.scan(rows)
                self.assert_is_at(caught.exception, start, end, record, message)
                if record is not None:
                    self.assertTrue(str(caught.exception).endswith(f"\n  = row: {record - 1}"))

    def test_rows_of_another_type(self):
        with self.assertRaises(vx.DataError) as caught:
            vx.evaluate("x > y", [1], SCHEMA)
        self.assertEqual((caught.exception.place.text, caught.exception.place.record), ("records", 1))
        with vx.Plan("x > y", SCHEMA) as plan:
            with self.assertRaises(vx.DataError) as caught:
                plan.scan([1])
            self.assertEqual((caught.exception.place.text, caught.exception.place.record), ("records", 1))
            # (the buffers of a column of i32)
            with self.assertRaises(vx.DataError) as caught, plan._handles.lent() as handle:
                scan_plan(handle, 1, [b"", b"\1\0\0\0"])
            self.assertEqual((caught.exception.place.text, caught.exception.place.record), ("records", None))

    def assert_is_at(self, error, start, end, record, message):
        place = error.place
        self.assertEqual((place.text, place.start, place.end, place.record), ("expression", start, end, record))
        self.assertTrue(str(error).startswith(f"error: {message}\n"))


if __name__ == "__main__":
    unittest.main()
