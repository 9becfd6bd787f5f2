"""Tests of what other libraries export by Arrow's PyCapsule interface."""

import gc
import itertools
import pathlib
import struct
import sys
import types
import unittest

sys.path.insert(0, str(pathlib.Path(__file__).parents[1]))
sys.path.insert(0, str(pathlib.Path(__file__).parent))

import vx  # noqa: E402
from columns import Column, Stream, live, record_batch  # noqa: E402
from vx import _structs  # noqa: E402

try:
    import numpy as np
except ImportError:
    np = None


def numbers(values, bits=None, **more):
    """A column of numbers of 32 bits, of which the bits say which are there."""
    buffers = [bits and bytearray(bits), bytearray(struct.pack(f"<{len(values)}i", *values))]
    return Column("i", len(values) - more.get("offset", 0), buffers, **more)


def texts(*values):
    ends = [len("".join(values[:end]).encode()) for end in range(len(values) + 1)]
    buffers = [None, bytearray(struct.pack(f"<{len(ends)}i", *ends)), bytearray("".join(values).encode() + b" ")]
    return Column("u", len(values), buffers, is_nullable=False)


class Capsules(unittest.TestCase):
    def tearDown(self):
        gc.collect()
        self.assertEqual((live, _structs._handed_out), ({}, []))

    def test_schemas(self):
        batch = record_batch(2, x=numbers([1, 2]), s=texts("a", "b"))
        self.assertEqual(vx.schema_of(batch), "{x=i32?, s=utf8}")
        self.assertEqual(vx.schema_of(Column("+l", 1, [None, None], [("item", texts("a"))])), "list(utf8)?")
        self.assertEqual(vx.schema_of(record_batch(0, **{"a`b": texts()})), "{`a``b`=utf8}")
        with self.assertRaises(vx.DataError) as caught:
            vx.schema_of(record_batch(0, x=texts(), y=record_batch(0, z=Column("e", 0, [None, None]))))
        self.assertIn("$.y.z: expected a format", str(caught.exception))
        self.assertEqual(caught.exception.place.text, "schema")
        with self.assertRaises(TypeError):
            vx.schema_of([1])

    def test_scans(self):
        batch = record_batch(3, x=numbers([1, 5, 7], b"\5"), s=texts("a", "b", "c"))
        with vx.Plan("x + 1", vx.schema_of(batch)) as plan:
            self.assertEqual(plan.scan(batch), [2, None, 8])
        with vx.Plan("x > 5 or s = 'a'", "{ x=i32?,\ts=utf8? }") as plan:
            self.assertEqual(plan.select(batch).tolist(), [True, False, True])
        with vx.Plan("$ > 5", "i32?") as plan:
            self.assertEqual(plan.scan(numbers([7, 1], b"\1")), [True, None])

    def test_evaluated(self):
        batch = record_batch(3, x=numbers([1, 5, 7], b"\5"), s=texts("a", "b", "c"))
        self.assertEqual(vx.evaluate("x + 1", batch), [2, None, 8])
        self.assertEqual(vx.evaluate("x is null or s = 'c'", batch, "{x=i32?, s=utf8?}"), [False, True, True])
        with self.assertRaises(vx.RefusedError):
            vx.evaluate("x + s", batch)
        with self.assertRaises(vx.DataError):
            vx.evaluate("x + 1", batch, "{x=i64?, s=utf8?}")

    def test_columns(self):
        batch = record_batch(3, x=numbers([1, 5, 7], b"\5"), s=texts("a", "b", "c"))
        with vx.Plan("x + 1", vx.schema_of(batch)) as plan:
            column = plan.scan_arrow(batch)
            self.assertEqual((column.type, len(column)), ("i32?", 3))
            with vx.Plan("$ + 1", column.type) as again:
                self.assertEqual(again.scan(column), [3, None, 9])
            with self.assertRaises(ValueError):
                column.__arrow_c_array__()
            plan.scan_arrow(batch)
            with self.assertRaises(vx.RefusedError):
                plan.filter_arrow(batch)
        with vx.Plan("x > 5 or s = 'a'", vx.schema_of(batch)) as plan:
            column = plan.filter_arrow(batch)
            self.assertEqual((column.type, len(column)), ("{x=i32?, s=utf8}", 2))
            with vx.Plan("$", column.type) as again:
                self.assertEqual(again.scan(column), [{"x": 1, "s": "a"}, {"x": 7, "s": "c"}])
        with self.assertRaises(vx.NoPlanError):
            plan.scan_arrow(batch)

    @unittest.skipUnless(np, "numpy isn't installed")
    def test_columns_as_arrays(self):
        batch = record_batch(3, x=numbers([1, 5, 7], b"\5"), s=texts("a", "b", "c"))
        for expression, wanted in [
            ("x + 1", [2, None, 8]),
            ("s < 'c'", [True, True, False]),
            ("x > 1", [False, None, True]),
            ("x is null", [False, True, False]),
            ("7u8", [7, 7, 7]),
        ]:
            with self.subTest(expression), vx.Plan(expression, vx.schema_of(batch)) as plan:
                self.assertEqual(plan.scan_numpy(batch).tolist(), wanted)
        with vx.Plan("x + 1", vx.schema_of(batch)) as plan:
            column = plan.scan_arrow(batch)
            array = column.numpy()
            for handed_out in (column.numpy, column.__arrow_c_array__):
                self.assertRaises(ValueError, handed_out)
        del column, plan
        gc.collect()
        self.assertEqual(array[1:].tolist(), [None, 8])
        with vx.Plan("s", vx.schema_of(batch)) as plan:
            self.assertRaises(TypeError, plan.scan_numpy, batch)
            column = plan.scan_arrow(batch)
            self.assertRaises(TypeError, column.numpy)
            self.assertEqual(len(column), 3)
        empty = record_batch(0, x=numbers([]), s=texts())
        with vx.Plan("x > 1", vx.schema_of(empty)) as plan:
            self.assertEqual(plan.scan_numpy(empty).tolist(), [])

    def test_floats(self):
        for arrow, letters, kind in (("g", "d", "f64"), ("f", "f", "f32")):
            packed = struct.pack(f"<5{letters}", 1.0, 9.75, -0.0, float("nan"), float("inf"))
            batch = record_batch(4, x=Column(arrow, 4, [bytearray(b"\x1b"), bytearray(packed)], offset=1))
            self.assertEqual(vx.schema_of(batch), f"{{x={kind}?}}")
            with vx.Plan("x > 9.5", vx.schema_of(batch)) as plan:
                self.assertEqual(plan.scan(batch), [True, None, True, True])
                self.assertEqual(plan.select(batch).tolist(), [True, False, True, True])
            with vx.Plan("x", vx.schema_of(batch)) as plan:
                self.assertEqual(repr(plan.scan(batch)), "[9.75, None, nan, inf]")
                column = plan.scan_arrow(batch)
                self.assertEqual((column.type, len(column)), (f"{kind}?", 4))
                if np:
                    found = column.numpy()
                    self.assertEqual((found.dtype, repr(found.tolist())), (np.dtype(letters), "[9.75, None, nan, inf]"))
                    del found
            del column

    def test_offsets(self):
        for offset in range(10):
            inner = numbers(list(range(40)), b"\x55\xaa\x0f\xf0\x99", offset=3)
            batch = record_batch(20, offset, x=inner)
            present = [0x99F00FAA55 >> at & 1 for at in range(3 + offset, 23 + offset)]
            with vx.Plan("x", "{x=i32?}") as plan:
                wanted = [3 + offset + at if there else None for at, there in enumerate(present)]
                self.assertEqual(plan.scan(batch), wanted)
            with vx.Plan("x is null", "{x=i32?}") as plan:
                self.assertEqual(plan.select(batch).tolist(), [not there for there in present])

    def test_refused(self):
        with vx.Plan("x > 1", "{x=i32}") as plan:
            for batch, message in [
                (record_batch(1, x=texts("a")), "expected a batch of the plan's type, and not of {x=utf8}"),
                (record_batch(1, y=numbers([1])), "not of {y=i32?}"),
                (record_batch(1), "not of {}"),
                (record_batch(2, x=numbers([1])), "$.x: expected a length of at least 2, and not 1"),
                (record_batch(1, x=Column("i", 1, [None])), "$.x: expected n_buffers 2, and not 1"),
                (record_batch(-1, x=numbers([1])), "$: expected a length and an offset"),
                (record_batch(1, x=Column("i", 1, [None, None])), "$.x: expected values"),
            ]:
                with self.subTest(message):
                    for work in (plan.scan, plan.select):
                        with self.assertRaises(vx.DataError) as caught:
                            work(batch)
                        self.assertIn(message, str(caught.exception))
                        self.assertEqual(caught.exception.place.text, "records")
            with self.assertRaises(vx.DataError) as caught:
                plan.select(record_batch(2, x=numbers([1, 2], b"\1")))
            self.assertEqual(caught.exception.place.record, 2)
        with self.assertRaises(vx.NoPlanError):
            plan.select(record_batch(1, x=numbers([1])))

    def test_wrong_capsules(self):
        class Swapped:
            def __arrow_c_array__(self, requested_schema=None):
                return tuple(reversed(numbers([1]).__arrow_c_array__()))

        with vx.Plan("$", "i32?") as plan, self.assertRaises(ValueError):
            plan.scan(Swapped())

    def test_released_by_none_but_the_capsules(self):
        column = numbers([1, 2])
        capsules = column.__arrow_c_array__()

        class Held:
            def __arrow_c_array__(self, requested_schema=None):
                return capsules

        with vx.Plan("$ > 1", "i32") as plan:
            for _ in range(3):
                self.assertEqual(plan.select(Held()).tolist(), [False, True])
        self.assertEqual(len(live), 2)
        capsules = None

    @unittest.skipUnless(np, "numpy isn't installed")
    def test_arrays_of_numpy(self):
        values = (np.arange(100_000, dtype=np.int64) * 2654435761 % 1_000_000).astype(np.int32)
        there = np.arange(100_000) % 7 != 0
        bits = np.packbits(there, bitorder="little")
        for start in (0, 3, 8):
            column = Column("i", len(values) - start, [bits, values], offset=start)
            with vx.Plan("x >= 10 and x <= 500000", "{x=i32?}") as plan:
                found = np.asarray(plan.select(record_batch(len(values) - start, x=column)))
            wanted = (there & (values >= 10) & (values <= 500_000))[start:]
            self.assertTrue((found == wanted).all())

    def test_a_column_goes_while_an_exception_is_under_way(self):
        batch = numbers([1, 2])
        with vx.Plan("$ + 1", "i32?") as plan:
            for work, wanted in [
                (lambda: int(plan.scan_arrow(batch)), TypeError),
                (lambda: [plan.scan_arrow(batch)][1], IndexError),
                (lambda: int(plan.scan_arrow(batch).__arrow_c_array__()), TypeError),
                (lambda: list(map(int, plan.scan_batches(Stream([batch, batch])))), TypeError),
            ]:
                self.assertRaises(wanted, work)

    def test_capsules_that_are_held_on(self):
        with vx.Plan("$ + 1", "i32?") as plan:
            capsules = plan.scan_arrow(numbers([1, 2])).__arrow_c_array__()
            self.assertEqual(len(_structs._handed_out), 2)

            class Held:
                def __arrow_c_array__(self, requested_schema=None):
                    return capsules

            self.assertEqual((plan.scan(Held()), plan.scan(Held())), ([3, 4], [3, 4]))
            capsules = None
            self.assertEqual(len(_structs._handed_out), 2)
            plan.scan_arrow(numbers([1, 2]))
            self.assertEqual(_structs._handed_out, [])

    def test_any_batch_comes_out_as_a_column(self):
        rows = [{"x": 1, "s": "a"}, {"x": None, "s": ""}, {"x": 7, "s": "c"}]
        for schema, batch in [
            ("{x=i32?, s=utf8}", rows),
            ("{x=i32?, s=utf8}", {"x": [1, None, 7], "s": ["a", "", "c"]}),
            ('{x=f32?, s=utf8, t=timestamp(ms, "UTC")?}', rows),
            ("{x=decimal(9, 0)?, s=utf8, l=list(list({a=bool})?)?, b=binary?, f=fixed_size_list(i8)[2]?, d=date?}", rows),
        ]:
            with self.subTest(schema), vx.Plan("x > 5 or s = ''", schema) as plan, vx.Plan("$", schema) as all_rows:
                wanted = all_rows.scan(batch)
                column, found = all_rows.scan_arrow(batch), plan.filter_arrow(batch)
                self.assertEqual((column.type, len(column), len(found)), (all_rows.type, 3, 2))
                self.assertEqual(all_rows.scan(column), wanted)
                self.assertEqual(all_rows.scan(found), wanted[1:])
        lists = [{"l": [[{"a": True}], None], "f": [1, -2]}, {"l": None, "f": None}, {"l": [], "f": [3, 4]}]
        with vx.Plan("$", "{l=list(list({a=bool})?)?, f=fixed_size_list(i8)[2]?}") as plan:
            self.assertEqual(plan.scan(plan.scan_arrow(lists)), lists)
        with vx.Plan("$ is not null", "list(utf8)?") as plan, vx.Plan("$", "list(utf8)?") as again:
            self.assertEqual(again.scan(plan.filter_arrow([["a", "b"], None, []])), [["a", "b"], []])


class Streams(unittest.TestCase):
    def setUp(self):
        batches = [[1, 5], [], [7, 9, -2]]
        self.stream = Stream([record_batch(len(batch), x=numbers(batch)) for batch in batches])

    def tearDown(self):
        gc.collect()
        self.assertEqual((live, _structs._handed_out), ({}, []))

    def test_batches_go_through_one_after_the_other(self):
        self.assertEqual(vx.schema_of(self.stream), "{x=i32?}")
        with vx.Plan("x + 1", "{x=i32?}") as plan:
            self.assertEqual(plan.scan(self.stream), [2, 6, 8, 10, -1])
            self.assertEqual(plan.scan(Stream(self.stream.batches[1:2])), [])
        with vx.Plan("x > 5", "{x=i32?}") as plan:
            self.assertEqual(plan.select(self.stream).tolist(), [False, False, True, True, False])
            for work in (plan.scan_arrow, plan.filter_arrow):
                self.assertRaises(TypeError, work, self.stream)

    def test_columns(self):
        with vx.Plan("x > 1", "{x=i32?}") as plan, vx.Plan("x + 1", "{x=i32?}") as sums:
            columns = plan.filter_batches(self.stream)
            self.assertEqual([sums.scan(column) for column in columns], [[6], [], [8, 10]])
            columns = sums.scan_batches(self.stream)
            self.assertEqual([(column.type, len(column)) for column in columns], [("i32?", 2), ("i32?", 0), ("i32?", 3)])
            for work in (sums.scan_batches, plan.filter_batches):
                self.assertEqual([len(column) for column in work([{"x": 7}])], [1])

    def test_evaluated(self):
        self.assertEqual(vx.evaluate("x + 1", self.stream), [2, 6, 8, 10, -1])
        self.assertEqual(vx.evaluate("x + 1", Stream([], type=self.stream.batches[0])), [])
        once = iter([self.stream.__arrow_c_stream__()])
        reader = types.SimpleNamespace(__arrow_c_stream__=lambda: next(once))
        self.assertEqual(vx.evaluate("x + 1", reader), [2, 6, 8, 10, -1])

    def test_no_batches(self):
        none = Stream([], type=self.stream.batches[0])
        self.assertEqual(vx.schema_of(none), "{x=i32?}")
        with vx.Plan("x > 1", "{x=i32?}") as plan:
            self.assertEqual((plan.scan(none), plan.select(none).tolist()), ([], []))
            self.assertEqual([len(column) for column in plan.filter_batches(none)], [0])
            if np:
                found = plan.filter_numpy(none)["x"]
                self.assertEqual((found.dtype, len(found)), (np.dtype("<i4"), 0))

    @unittest.skipUnless(np, "numpy isn't installed")
    def test_arrays_of_all_batches(self):
        more = Stream([*self.stream.batches, record_batch(2, x=numbers([8, 0], b"\1"))])
        with vx.Plan("x > 5", "{x=i32?}") as plan:
            for stream, masked in ((self.stream, None), (more, [False, True])):
                found = plan.scan_numpy(stream)
                self.assertEqual(found.tolist(), [False, False, True, True, False, *([True, None] if masked else [])])
                self.assertEqual(plan.filter_numpy(stream)["x"].tolist(), [7, 9, *([8] if masked else [])])

    def test_places_count_the_rows_of_all_batches(self):
        full = Stream([*self.stream.batches, record_batch(2, x=numbers([1, 2**31 - 1]))])
        with vx.Plan("x + 1", "{x=i32?}") as plan:
            for work in (plan.scan, lambda stream: list(plan.scan_batches(stream))):
                with self.assertRaises(vx.FaultError) as caught:
                    work(full)
                self.assertEqual(caught.exception.place.record, 7)

    def test_a_stream_that_stops(self):
        for message, wanted in ((b"no \xff more", "no \ufffd more"), (None, "the stream stops")):
            stream = Stream(self.stream.batches, (5, message))
            with self.subTest(wanted), vx.Plan("x > 5", "{x=i32?}") as plan:
                with self.assertRaises(OSError) as caught:
                    plan.select(stream)
                self.assertEqual((caught.exception.errno, caught.exception.strerror), (5, wanted))
                self.assertEqual([len(it) for it in itertools.islice(plan.filter_batches(stream), 3)], [0, 0, 2])

    def test_refused(self):
        with vx.Plan("x > 5", "{x=i64}") as plan:
            for work in (plan.scan, plan.select, lambda stream: list(plan.scan_batches(stream))):
                self.assertRaises(vx.DataError, work, self.stream)
        with vx.Plan("x > 5", "{x=i32?}") as plan:
            columns = plan.filter_batches(self.stream)
            self.assertEqual(len(next(columns)), 0)
        self.assertRaises(vx.NoPlanError, next, columns)
        with self.assertRaises(vx.DataError):
            vx.schema_of(Stream([record_batch(0, x=Column("e", 0, [None]))]))

        class Swapped:
            def __arrow_c_stream__(self, requested_schema=None):
                return numbers([1]).__arrow_c_schema__()

        capsule = self.stream.__arrow_c_stream__()

        class Held:
            def __arrow_c_stream__(self, requested_schema=None):
                return capsule

        with vx.Plan("x > 5", "{x=i32?}") as plan:
            self.assertRaises(ValueError, plan.scan, Swapped())
            self.assertEqual(len(plan.scan(Held())), 5)
            self.assertEqual(plan.scan(Held()), [])


if __name__ == "__main__":
    unittest.main()
