"""Tests of the calls; `python -m unittest discover -s tests` in the folder above runs all tests."""

import doctest
import pathlib
import sys
import unittest

sys.path.insert(0, str(pathlib.Path(__file__).parents[1]))

import vx  # noqa: E402
from vx import _batches, _calls, _capsules, _errors, _kept, _library, _plans, _results, _statistics, _types  # noqa: E402
from vx import _floats, _lent, _units, _views  # noqa: E402

X = "{x=i32}"


def load_tests(_loader, tests, _pattern):
    """Adds the examples of the docstrings."""
    texts = (vx, _calls, _capsules, _errors, _kept, _library, _plans, _results, _statistics)
    for module in (*texts, _batches, _floats, _lent, _types, _units, _views):
        tests.addTests(doctest.DocTestSuite(module))
    return tests


class Pages(unittest.TestCase):
    def test_check_and_fmt(self):
        self.assertEqual(vx.check("x >= 1 and x <= 5", "{x=i32?}"), "bool?")
        self.assertEqual(vx.fmt("x between 1 and 3"), "(1i32 <= $.x <= 3i32)")
        self.assertEqual(vx.fmt('s = "ä\U0001f600"'), '($.s = "ä\U0001f600")')

    def test_plan(self):
        plan = vx.plan("a.x >= 1 and b < 5", "{a={x=i32, y=i32}?, b=i32, c=utf8}")
        self.assertEqual(plan.type, "bool?")
        self.assertEqual(plan.paths, [("a", "x"), ("b",)])
        self.assertEqual([it.name for it in plan.partitions], ["a", "b"])
        self.assertEqual(plan.partitions[1].tree, "pack(b_0: ($.b < 5i32))")
        whole = vx.plan("is_null($)", "utf8?")
        self.assertEqual((whole.paths, whole.root, whole.partitions), ([()], None, []))

    def test_explain(self):
        self.assertIn("type: bool\n", vx.explain("x > 5 and x < 9", X))

    def test_version(self):
        self.assertEqual((vx.version(), vx.__version__), ("0.1.0", "0.1.0"))


class Rows(unittest.TestCase):
    def test_rows_and_columns(self):
        self.assertEqual(vx.evaluate("x + 1", [{"x": 1}, {"x": -5}], X), [2, -4])
        self.assertEqual(vx.evaluate("x + 1", {"x": [1, -5]}, X), [2, -4])
        self.assertEqual(vx.evaluate("x + 1", [], X), [])
        self.assertEqual(vx.evaluate("$ + 1", [1, 2], "i32"), [2, 3])
        with self.assertRaises(ValueError):
            vx.evaluate("x", {"x": [1], "y": []}, "{x=i32, y=i32}")
        with self.assertRaises(TypeError):
            vx.evaluate("x", [{"x": 1}])

    def test_values_of_each_kind(self):
        schema = "{a=binary?, b=list({c=utf8, d=bool?}), `e f`=u64, g=fixed_size_list(i8)[2]}"
        row = {
            "a": b"\x00\xff",
            "b": [{"c": "x\ny\u2028", "d": None}, {"c": "", "d": True}],
            "e f": 2**64 - 1,
            "g": [1, -2],
        }
        self.assertEqual(vx.evaluate("$", [row, {**row, "a": None}], schema), [row, {**row, "a": None}])
        self.assertEqual(vx.evaluate("a", [row], schema), [b"\x00\xff"])

    def test_many_rows(self):
        rows = [{"x": number} for number in range(20_000)]
        self.assertEqual(sum(vx.evaluate("x >= 5000", rows, X)), 15_000)

    def test_a_fault(self):
        with self.assertRaises(vx.FaultError) as caught:
            vx.evaluate("0 + (x + 1)", [{"x": 1}, {"x": 2**31 - 1}], X)
        place = caught.exception.place
        self.assertEqual((place.text, place.start, place.end, place.record), ("expression", 4, 11, 2))

    def test_bad_data(self):
        for rows in ([{"x": 1.5}], [{"x": None}], [{}], ["x"], [{"x": 1, "y": 2}], [{"x": 2**31}]):
            with self.assertRaises(vx.DataError) as caught:
                vx.evaluate("x", rows, X)
            self.assertEqual((caught.exception.place.text, caught.exception.place.line), ("records", 1))
        with self.assertRaises(vx.DataError):
            vx.evaluate("s", [{"s": "\ud800"}], "{s=utf8}")


class Pruning(unittest.TestCase):
    def test_verdicts(self):
        chunks = [
            vx.statistics(3, x={"greatest": 5}),
            vx.statistics(3, x={"nulls": 0, "least": 6}),
            vx.statistics(4),
            vx.statistics(0),
        ]
        wanted = [vx.Verdict.NO_ROW, vx.Verdict.EVERY_ROW, vx.Verdict.TO_BE_READ, vx.Verdict.NO_ROW]
        self.assertEqual(vx.prune("x > 5", chunks, X), wanted)
        self.assertEqual(vx.prune("x > 5", '{"rows": 4}\n{"rows": 0}', X), wanted[2:])
        self.assertEqual(vx.prune("x > 5", [], X), [])

    def test_fields_of_structs_and_bytes(self):
        chunks = [vx.statistics(3, **{"a.b": {"greatest": b"\x10"}})]
        schema = "{a={b=binary}}"
        self.assertEqual(vx.prune('a.b > 0x20', chunks, schema), [vx.Verdict.NO_ROW])

    def test_what_is_no_truth_value(self):
        with self.assertRaises(vx.RefusedError):
            vx.prune("x + 1", [vx.statistics(1)], X)

    def test_no_statistics(self):
        for chunks in ([{"rows": -1}], [{}], ['x'], '{"rows": 1', [vx.statistics(1, y={})]):
            with self.assertRaises(vx.DataError):
                vx.prune("x > 5", chunks, X)

    def test_statistics_that_cannot_be(self):
        for known, wanted in (({"nulls": 4}, "fields.x.nulls"), ({"least": 2, "greatest": 1}, "fields.x.greatest")):
            with self.assertRaises(vx.DataError) as caught:
                vx.prune("x > 5", [vx.statistics(3), vx.statistics(3, x=known)], X)
            self.assertIn(f"line 2, at {wanted}", str(caught.exception))


class Errors(unittest.TestCase):
    def test_places(self):
        with self.assertRaises(vx.UnreadError) as caught:
            vx.check("x +\n <", X)
        place = caught.exception.place
        self.assertEqual((place.text, place.start, place.line, place.column), ("expression", 5, 2, 2))
        self.assertIn("2 |  <\n", str(caught.exception))
        with self.assertRaises(vx.UnreadError) as caught:
            vx.plan("x", "{x=i33}")
        self.assertEqual(caught.exception.place.text, "schema")
        with self.assertRaises(vx.RefusedError) as caught:
            vx.explain("y", X)
        self.assertEqual(caught.exception.place.end, 1)

    def test_literals_take_the_type_of_what_they_stand_beside(self):
        self.assertEqual(vx.check("id > 5", "{id=i64}"), "bool")
        with self.assertRaises(vx.RefusedError) as caught:
            vx.check("id > 1 and\n small = 300", "{id=i64, small=i8}")
        place = caught.exception.place
        self.assertEqual((place.text, place.start, place.end, place.line), ("expression", 20, 23, 2))
        self.assertIn("300 is no i8", str(caught.exception))

    def test_help(self):
        for expression, schema, wanted in [
            ("id > 5i32", "{id=i64}", "id is i64, 5i32 is i32: write 5i64"),
            ('id > "5"', "{id=i64}", "id is i64: write a whole number, as in id > 5"),
            ('Name = "Bob"', "{name=utf8}", "there is name"),
        ]:
            with self.subTest(expression), self.assertRaises(vx.RefusedError) as caught:
                vx.check(expression, schema)
            self.assertIn(f"  = help: {wanted}", str(caught.exception))

    def test_texts_that_are_none(self):
        for expression in ("", "x\0", "\ud800", "x = \"\udfff\""):
            with self.assertRaises(vx.UnreadError):
                vx.fmt(expression)

    def test_long_texts(self):
        for piece in ("x and ", "(", "1 + "):
            with self.subTest(piece), self.assertRaises(vx.UnreadError):
                vx.check(piece * 1_000_000, X)


if __name__ == "__main__":
    unittest.main()
