"""Decimals, days and instants, in and out."""

import datetime
import decimal
import pathlib
import sys
import unittest

sys.path.insert(0, str(pathlib.Path(__file__).parents[1]))

import vx  # noqa: E402

try:
    import numpy
except ImportError:
    numpy = None

SCHEMA = '{d=date?, t=timestamp(ms, "UTC")?, u=timestamp(ns), p=decimal(4, 2)?}'
ROWS = [
    {
        "d": datetime.date(2024, 1, 31),
        "t": datetime.datetime(2024, 1, 31, 10, 15, 30, 250000, datetime.timezone.utc),
        "u": datetime.datetime(1969, 12, 31, 23, 59, 59, 999999),
        "p": decimal.Decimal("9.50"),
    },
    {"d": None, "t": None, "u": datetime.datetime(1970, 1, 1), "p": None},
]


class Values(unittest.TestCase):
    def test_rows_come_out_as_they_went_in(self) -> None:
        self.assertEqual(vx.evaluate("$", ROWS, SCHEMA), ROWS)
        with vx.Plan("$", SCHEMA) as plan:
            self.assertEqual(plan.scan(ROWS), ROWS)

    def test_filters_over_a_text_beside_a_column(self) -> None:
        with vx.Plan('d >= "2024-01-31" and p > "9.49" and t < "2024-02-01T00:00:00Z"', SCHEMA) as plan:
            self.assertEqual(plan.select(ROWS).tolist(), [True, False])

    def test_sums_of_decimals_are_exact(self) -> None:
        ten = decimal.Decimal("0.10")
        self.assertEqual(vx.evaluate("p + p", [{"p": ten}], "{p=decimal(3, 2)}"), [decimal.Decimal("0.20")])
        with self.assertRaises(vx.FaultError):
            vx.evaluate("p + p", [{"p": decimal.Decimal("9.99")}], "{p=decimal(3, 2)}")

    def test_days_outside_the_calendar_are_numbers(self) -> None:
        with vx.Plan("d", "{d=date}") as plan:
            self.assertEqual(plan.scan({"d": [4000000, -1]}), [4000000, datetime.date(1969, 12, 31)])

    def test_parts_of_a_microsecond_are_a_text(self) -> None:
        with vx.Plan("u", "{u=timestamp(ns)}") as plan:
            self.assertEqual(plan.scan({"u": [1]}), ["1970-01-01T00:00:00.000000001"])

    def test_what_is_none_of_the_type(self) -> None:
        zoned = datetime.datetime(2024, 1, 31, tzinfo=datetime.timezone.utc)
        for schema, value in (
            ("{x=decimal(4, 2)}", decimal.Decimal("9.505")),
            ("{x=decimal(4, 2)}", decimal.Decimal("100")),
            ("{x=decimal(4, 2)}", decimal.Decimal("NaN")),
            ("{x=decimal(4, 2)}", 9.5),
            ("{x=date}", datetime.datetime(2024, 1, 31)),
            ("{x=date}", "2024-01-31"),
            ("{x=timestamp(s)}", zoned),
            ('{x=timestamp(s, "UTC")}', zoned.replace(tzinfo=None)),
            ("{x=timestamp(ms)}", datetime.datetime(1970, 1, 1, microsecond=1)),
            ("{x=timestamp(ns)}", datetime.datetime(1, 1, 1)),
        ):
            with self.subTest(schema=schema, value=value), vx.Plan("x", schema) as plan:
                with self.assertRaises(vx.DataError):
                    plan.scan({"x": [value]})


@unittest.skipIf(numpy is None, "numpy isn't installed")
class Arrays(unittest.TestCase):
    def test_days_and_instants_of_numpy(self) -> None:
        days = numpy.array(["2024-01-31", "NaT", "1969-12-31"], "datetime64[D]")
        instants = numpy.array(["2024-01-31T10:15:30", "NaT", "1969-12-31"], "datetime64[us]")
        with vx.Plan('d >= "2024-01-31" and t > "2024-01-31T10:00:00"', "{d=date?, t=timestamp(us)?}") as plan:
            self.assertEqual(plan.select({"d": days, "t": instants}).tolist(), [True, False, False])
        for name, column in (("date", days), ("timestamp(us)", instants)):
            with vx.Plan("x", f"{{x={name}?}}") as plan:
                found = plan.scan_numpy({"x": column})
                self.assertEqual(found.dtype, column.dtype)
                self.assertEqual(found.mask.tolist(), [False, True, False])
                self.assertEqual(found.compressed().tolist(), column[[0, 2]].tolist())

    def test_instants_of_another_unit(self) -> None:
        """Each is taken where it is a whole number of the type's units, as an array or by itself."""
        clock = datetime.datetime(2024, 1, 31, 10, 15, 30)
        for text, unit, schema, wanted in (
            ("2024-01-31T10:15:30", "s", "timestamp(us)", clock),
            ("2024-01-31T10:15:30", "ns", "timestamp(us)", clock),
            ("2024-01-31T10:15:30", "ns", "timestamp(s)", clock),
            ("2024-01-31", "ns", "date", clock.date()),
            ("2024-01-31", "M", "date", datetime.date(2024, 1, 1)),
            ("12000-01-01", "us", "timestamp(ms)", 316516204800000),
            ("2024-01-31T10:15:30.000000001", "ns", "timestamp(us)", vx.DataError),
            ("2024-01-31T10:15:30.5", "ms", "timestamp(s)", vx.DataError),
            ("2024-01-31T10", "h", "date", vx.DataError),
            ("12000-01-01", "us", "timestamp(ns)", vx.DataError),
            ("9999999-01-01", "D", "date", vx.DataError),
            ("NaT", "ns", "timestamp(us)", vx.DataError),
            ("2024-01-31T10:15:30", "s", 'timestamp(s, "UTC")', vx.DataError),
        ):
            column = numpy.array(["1970-01-01", text], f"datetime64[{unit}]")
            for rows in ({"x": column}, {"x": column.astype(f">M8[{unit}]")}, [{"x": it} for it in column]):
                with self.subTest(text, unit=unit, schema=schema), vx.Plan("x", f"{{x={schema}}}") as plan:
                    if wanted is vx.DataError:
                        self.assertRaises(vx.DataError, plan.scan, rows)
                        self.assertRaises(vx.DataError, vx.evaluate, "x", rows, f"{{x={schema}}}")
                    else:
                        self.assertEqual(plan.scan(rows)[1], wanted)
        column = numpy.array(["NaT", "1970-01-01"], "datetime64[ns]")
        with vx.Plan("x is null", "{x=timestamp(us)?}") as plan:
            self.assertEqual(plan.scan({"x": column}), [True, False])

    def test_decimals(self) -> None:
        """numpy has none; what it has are objects."""
        ten = decimal.Decimal("9.50")
        with vx.Plan("p + p", "{p=decimal(4, 2)?}") as plan:
            self.assertEqual(plan.scan({"p": numpy.array([ten, None])}), [decimal.Decimal("19.00"), None])
            self.assertEqual(plan.scan({"p": numpy.array([3, 4])}), [decimal.Decimal(6), decimal.Decimal(8)])
            self.assertRaises(TypeError, plan.scan_numpy, {"p": numpy.array([ten])})
            self.assertRaises(TypeError, plan.filter_numpy, {"p": numpy.array([ten])})


if __name__ == "__main__":
    unittest.main()
