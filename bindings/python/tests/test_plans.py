"""Tests of plans that are kept, and of the batches that they are given."""

import array
import gc
import pathlib
import sys
import threading
import time
import unittest

sys.path.insert(0, str(pathlib.Path(__file__).parents[1]))

import vx  # noqa: E402
from vx._batches import batch_of, bits_from, bits_of  # noqa: E402
from vx._library import call  # noqa: E402
from vx._types import type_of, values_of  # noqa: E402

X = "{x=i32}"
EXPRESSIONS = pathlib.Path(__file__).parents[2] / "tests/expressions.tsv"


class Buffers(unittest.TestCase):
    def test_bits(self):
        flags = [number % 3 == 0 for number in range(29)]
        for start in range(len(flags)):
            for end in range(start, len(flags) + 1):
                self.assertEqual(bits_from(bits_of(flags), start, end - start), bits_of(flags[start:end]))

    def test_layouts(self):
        for dtype, rows, wanted in [
            ("bool", [True, False, True], [b"", b"\5"]),
            ("bool?", [None, True], [b"\2", b"\2"]),
            ("i16", [-1, 256], [b"", b"\xff\xff\0\1"]),
            ("u64", [2**64 - 1], [b"", b"\xff" * 8]),
            ("utf8?", ["a", None, "ä"], [b"\5", b"\0\0\0\0\1\0\0\0\1\0\0\0\3\0\0\0", b"a\xc3\xa4"]),
            ("binary", [bytearray(b"\1")], [b"", b"\0\0\0\0\1\0\0\0", b"\1"]),
            ("list(i8?)?", [[1, None], None], [b"\1", b"\0\0\0\0\2\0\0\0\2\0\0\0", b"\1", b"\1\0"]),
            ("fixed_size_list(i8)[2]?", [None, (1, 2)], [b"\2", b"", b"\0\0\1\2"]),
            ("{a={b=i8, c=i8?}?, d=bool}", [{"d": True}], [b"", b"\0", b"", b"\0", b"\0", b"\0", b"", b"\1"]),
            ("{}", [{}, {}], [b""]),
            ("utf8", [], [b"", b"\0\0\0\0", b""]),
        ]:
            with self.subTest(dtype):
                self.assertEqual(batch_of(rows, type_of(dtype)), (len(rows), wanted))

    def test_rows_of_another_type(self):
        for dtype, rows, record in [
            ("bool", [True, 1], 2),
            ("i8", [127, 128], 2),
            ("u8", [-1], 1),
            ("i32", [True], 1),
            ("i32", [1.0], 1),
            ("i32", [None], 1),
            ("utf8", ["a", b"a"], 2),
            ("binary", ["a"], 1),
            ("list(i8)", [[1], [2, 300]], 2),
            ("list(i8)", ["a"], 1),
            ("fixed_size_list(i8)[2]", [[1]], 1),
            ("{x=i32}", [{"x": 1}, {}], 2),
            ("{x=i32}", [{"x": 1, "y": 2}], 1),
            ("{x=i32}", ["x"], 1),
            ("{a={b=list(i8)}?}", [{}, {}, {"a": {"b": [1, None]}}], 3),
        ]:
            with self.subTest(dtype, rows=rows), self.assertRaises(vx.DataError) as caught:
                batch_of(rows, type_of(dtype))
            self.assertEqual((caught.exception.place.text, caught.exception.place.record), ("records", record))

    def test_columns(self):
        dtype = type_of("{x=i8, s=utf8?}")
        columns = {"s": ["a", None], "x": (1, 2)}
        rows = [{"s": "a", "x": 1}, {"x": 2}]
        self.assertEqual(batch_of(columns, dtype), batch_of(rows, dtype))
        self.assertEqual(batch_of({"x": [1]}, dtype), batch_of([{"x": 1}], dtype))
        self.assertEqual(batch_of({}, dtype), batch_of([], dtype))
        with self.assertRaises(ValueError):
            batch_of({"x": [1], "s": []}, dtype)
        for columns, schema, record in [
            ({"x": [1, 300]}, "{x=i8}", 2),
            ({"x": [1]}, "{x=i8, s=utf8}", 1),
            ({"x": [1], "y": [1]}, "{x=i8}", None),
            ({"x": [1]}, "i8", None),
        ]:
            with self.subTest(columns, schema=schema), self.assertRaises(vx.DataError) as caught:
                batch_of(columns, type_of(schema))
            self.assertEqual((caught.exception.place.text, caught.exception.place.record), ("records", record))


class Scans(unittest.TestCase):
    def test_rows_and_columns(self):
        with vx.Plan("x + 1", "{x=i32?}") as plan:
            self.assertEqual((plan.paths, plan.type), ([("x",)], "i32?"))
            self.assertEqual(plan.scan([{"x": 1}, {"x": None}, {}]), [2, None, None])
            self.assertEqual(plan.scan({"x": [1, -5]}), [2, -4])
            self.assertEqual(plan.scan([]), [])
            self.assertEqual(plan.scan({}), [])
            with self.assertRaises(vx.DataError):
                plan.scan([{"y": 1}])
        with vx.Plan("$ + 1", "i32") as plan:
            self.assertEqual(plan.scan([1, 2]), [2, 3])

    def test_selections(self):
        for expression, schema, batch, wanted in [
            ("x > 1", "{x=i32?}", {"x": [1, None, 2, 7]}, [False, False, True, True]),
            ("x is null or x = 1", "{x=i32?}", [{"x": 1}, {"x": None}, {"x": 2}], [True, True, False]),
            ('s like "a%"', "{s=utf8?}", {"s": ["ab", None, "b"]}, [True, False, False]),
            ("a.b >= 2 and not c", "{a={b=u8}?, c=bool}", [{"a": {"b": 2}, "c": False}, {"a": None, "c": False}], [True, False]),
            ("1 < 2", "{}", [{}, {}], [True, True]),
            ("$", "bool?", [True, None, False], [True, False, False]),
            ("x > 1", "{x=i32}", [], []),
        ]:
            with self.subTest(expression), vx.Plan(expression, schema) as plan:
                self.assertEqual(plan.select(batch).tolist(), wanted)
                self.assertEqual([value is True for value in plan.scan(batch)], wanted)
        with vx.Plan("x + 1 > 5", X) as plan, self.assertRaises(vx.FaultError) as caught:
            plan.select({"x": [1, 2**31 - 1]})
        self.assertEqual(caught.exception.place.record, 2)
        with vx.Plan("x + 1", X) as plan, self.assertRaises(vx.RefusedError) as caught:
            plan.select({"x": [1]})
        place = caught.exception.place
        self.assertEqual((place.text, place.start, place.end), ("expression", 0, 5))
        with vx.Plan("x > 1", X) as plan, self.assertRaises(vx.DataError):
            plan.select([{"x": "a"}])

    def test_paths(self):
        rows = "{a={x=i32, y=i32}?, b=i32, c=utf8}"
        for expression, schema, paths in [
            ("a.x >= 1 and b < 5", rows, [("a", "x"), ("b",)]),
            ("is_null($)", "utf8?", [()]),
            ("1 < 2", rows, []),
        ]:
            with self.subTest(expression), vx.Plan(expression, schema) as plan:
                self.assertEqual(plan.paths, paths)
                self.assertEqual(vx.plan(expression, schema).paths, paths)

    def test_values_of_each_kind(self):
        schema = "{a=binary?, b=list({c=utf8, d=bool?}), `e f`=u64, g=fixed_size_list(i8)[2]?}"
        row = {"a": b"\x00\xff", "b": [{"c": "x\ny\u2028", "d": None}, {"c": "", "d": True}], "e f": 2**64 - 1}
        rows = [{**row, "g": [1, -2]}, {**row, "a": None, "b": [], "g": None}]
        with vx.Plan("$", schema) as plan:
            self.assertEqual(plan.scan(rows), rows)
            self.assertEqual(plan.paths, [()])

    def test_many_batches(self):
        with vx.Plan("x >= 5000", X) as plan:
            found = [plan.scan({"x": range(start, start + 1000)}) for start in range(0, 20_000, 1000)]
        self.assertEqual(sum(map(sum, found)), 15_000)

    def test_stops(self):
        with vx.Plan("0 + (x + 1)", X) as plan:
            with self.assertRaises(vx.FaultError) as caught:
                plan.scan({"x": [1, 2**31 - 1]})
            place = caught.exception.place
            self.assertEqual((place.text, place.start, place.end, place.record), ("expression", 4, 11, 2))
            self.assertEqual(plan.scan({"x": [1]}), [2])
        with vx.Plan("s", "{s=utf8}") as plan, self.assertRaises(vx.DataError) as caught:
            plan.scan({"s": ["a", "\ud800"]})
        self.assertEqual((caught.exception.place.text, caught.exception.place.record), ("records", 2))
        unread, refused = vx.UnreadError, vx.RefusedError
        for expression, schema, error in [("x +", X, unread), ("x", "{", unread), ("y", X, refused)]:
            with self.subTest(expression, schema=schema), self.assertRaises(error):
                vx.Plan(expression, schema)

    def test_as_expressions_are_evaluated(self):
        compared = 0
        for line in EXPRESSIONS.read_text(encoding="utf-8").splitlines():
            expression, schema, records, _ = line.replace("¶", "\n").split("\t")
            try:
                page = call("vx_eval_json", *(text.encode() for text in (expression, schema, records)))
            except vx.VxError:
                continue
            lines = "".join(record + "\n" for record in records.split("\n") if record)
            with self.subTest(expression, schema=schema), vx.Plan(expression, schema) as plan:
                rows = values_of(lines, type_of(vx.check("$", schema)))
                # (as texts, in which each NaN is equal, and -0.0 isn't 0.0)
                self.assertEqual(repr(plan.scan(rows)), repr(values_of(page, type_of(plan.type))))
                compared += 1
        self.assertGreater(compared, 50)


class Blocks(unittest.TestCase):
    """Batches of more rows than go through a tree at once."""

    @staticmethod
    def numbers(early, late):
        """Ones, with other numbers in an early row and in a late one."""
        rows = [1] * 2500
        rows[10], rows[1500] = early, late
        return rows

    def test_each_row_in_its_place(self):
        with vx.Plan("$ + 1", "i32?") as plan:
            wanted = [2] * 10 + [21] + [2] * 1489 + [31] + [2] * 999
            self.assertEqual(plan.scan(self.numbers(20, 30)), wanted)

    def test_late_faults(self):
        most = 2**31 - 1
        for expression, early, late, start, end, record in [
            ("$ + 1", 1, most, 0, 5, 1501),
            # the later node faults in an earlier row
            ("($ + 1) + ($ + $)", most - 1, most, 0, 7, 1501),
            ("fill_null($, $)", 1, 2, 0, 15, None),
        ]:
            with self.subTest(expression), vx.Plan(expression, "i32?") as plan:
                with self.assertRaises(vx.FaultError) as caught:
                    plan.scan(self.numbers(early, late))
                place = caught.exception.place
                self.assertEqual((place.text, place.start, place.end), ("expression", start, end))
                self.assertEqual(place.record, record)


class Lives(unittest.TestCase):
    def test_closed(self):
        plan = vx.Plan("x", X)
        plan.close()
        plan.close()
        with self.assertRaises(vx.NoPlanError) as caught:
            plan.scan([])
        self.assertIsNone(caught.exception.place)
        with plan:
            pass

    def test_let_go_of(self):
        for _ in range(100):
            vx.Plan("x", X)
        gc.collect()

    def test_one_plan_on_many_threads(self):
        plan, found = vx.Plan("x + 1", X), []

        def work(number):
            found.append(all(plan.scan({"x": [number, turn]}) == [number + 1, turn + 1] for turn in range(200)))

        self.on_threads(work)
        self.assertEqual(found, [True] * 8)
        self.assertLessEqual(len(plan._handles._spare), 8)
        plan.close()
        self.assertEqual(plan._handles._spare, [])

    def test_calls_let_others_run(self):
        batch, times = {"x": array.array("i", range(1_000_000))}, []
        plan, interval = vx.Plan("x > 5", X), sys.getswitchinterval()

        def work():
            times.append(time.perf_counter())
            plan.select(batch)
            times.append(time.perf_counter())

        thread, seen = threading.Thread(target=work), []
        # (so that no thread runs before another waits, or is within a call)
        sys.setswitchinterval(1000)
        try:
            thread.start()
            while thread.is_alive():
                seen.append(time.perf_counter())
                time.sleep(0.001)
        finally:
            sys.setswitchinterval(interval)
        self.assertTrue(any(times[0] < moment < times[1] for moment in seen))

    def test_closed_on_another_thread(self):
        plan, errors = vx.Plan("x + 1", X), []

        def work(number):
            try:
                for turn in range(1000):
                    if number == 0 and turn == 500:
                        plan.close()
                    plan.select({"x": [turn]}) if number % 2 else plan.scan({"x": [turn]})
            except vx.VxError as error:
                errors.append(type(error))

        self.on_threads(work)
        self.assertIn(vx.NoPlanError, errors)
        self.assertIsNone(plan._handles._first.at)
        self.assertEqual(plan._handles._spare, [])

    def test_let_go_of_on_another_thread(self):
        """The last reference may be dropped by any thread, also by one that ends."""
        own, kept = threading.local(), []

        def work(number):
            own.plan = vx.Plan("x", X)
            own.plan.scan({"x": [1]})
            kept.append((own.plan._handles._free, own.plan._handles._first))

        self.on_threads(work)
        for free, handle in kept:
            self.assertFalse(free.alive)
            self.assertIsNone(handle.at)

    def on_threads(self, work):
        threads = [threading.Thread(target=work, args=[number]) for number in range(8)]
        for thread in threads:
            thread.start()
        for thread in threads:
            thread.join()

    def test_threads_of_their_own(self):
        found = []

        def work(number):
            with vx.Plan(f"x + {number}", X) as plan:
                found.append(all(plan.scan({"x": [turn]}) == [turn + number] for turn in range(200)))

        self.on_threads(work)
        self.assertEqual(found, [True] * 8)


if __name__ == "__main__":
    unittest.main()
