"""The whole numbers that stand for decimals, days and instants in a batch."""

from __future__ import annotations

import datetime
import decimal
from numbers import Integral
from typing import TYPE_CHECKING, Any, Optional

from . import _numpy

if TYPE_CHECKING:
    from ._types import Type

SIZES = {"date": 4, "timestamp": 8, "decimal": 16}
"""How many bytes a value of such a type has in a buffer."""

_PLACES = {"s": 0, "ms": 3, "us": 6, "ns": 9}
_EPOCH = datetime.datetime(1970, 1, 1)
_MICROSECOND = datetime.timedelta(microseconds=1)


def units_of(value: Any, dtype: Type) -> Optional[int]:
    """The number of days, of units since 1970, or of a decimal's units; None for what is no value of the type.

    >>> from vx._types import type_of
    >>> units_of(decimal.Decimal("9.5"), type_of("decimal(4, 2)")), units_of(decimal.Decimal("9.505"), type_of("decimal(4, 2)"))
    (950, None)
    >>> units_of(datetime.date(2024, 1, 31), type_of("date"))
    19753

    A whole number is one of days or of units, or a decimal without places. An instant has a time zone exactly where its
    type has one, and no part that the type's unit hasn't.
    """
    if dtype.kind == "decimal":
        units = _shifted(value, dtype.scale)
        return units if units is not None and abs(units) < 10**dtype.precision else None
    bits = 8 * SIZES[dtype.kind]
    number = _day(value) if dtype.kind == "date" else _instant(value, dtype)
    return number if number is not None and -(1 << bits - 1) <= number < 1 << bits - 1 else None


def is_whole(value: Any) -> bool:
    """Whether this is a whole number, of Python's or numpy's.

    >>> is_whole(1), is_whole(True), is_whole(1.0)
    (True, False, False)
    """
    # (the first test is the fast one; spans of time of numpy's are Integral, too)
    if isinstance(value, int):
        return not isinstance(value, bool)
    return isinstance(value, Integral) and hasattr(value, "__index__")


def _whole(value: Any) -> Optional[int]:
    return int(value) if is_whole(value) else None


def _shifted(value: Any, scale: int) -> Optional[int]:
    """The number times 10 to the scale, where that is a whole number."""
    whole = _whole(value)
    if whole is not None:
        return whole * int(10**scale)
    if not isinstance(value, decimal.Decimal) or not value.is_finite():
        return None
    sign, digits, exponent = value.as_tuple()
    number = int("".join(map(str, digits)) or "0") * (-1 if sign else 1)
    places = int(exponent) + scale
    if places >= 0:
        # (no type has so many digits)
        return number * int(10 ** min(places, 40))
    whole, rest = divmod(number, 10 ** min(-places, len(digits) + 1))
    return None if rest else whole


def _day(value: Any) -> Optional[int]:
    if isinstance(value, datetime.date) and not isinstance(value, datetime.datetime):
        return (value - _EPOCH.date()).days
    return _of_numpy(value, "D") if _numpy.is_instant(value) else _whole(value)


def _of_numpy(value: Any, unit: str) -> Optional[int]:
    """The number of units of a day or an instant of numpy's, None of NaT."""
    number = None if _numpy.plain(value) is None else _numpy.in_unit(value, unit)
    return None if number is None else int(number)


def _instant(value: Any, dtype: Type) -> Optional[int]:
    if _numpy.is_instant(value):
        return _of_numpy(value, dtype.unit) if dtype.zone is None else None
    if not isinstance(value, datetime.datetime):
        return _whole(value)
    has_zone = value.utcoffset() is not None
    if has_zone != (dtype.zone is not None):
        return None
    epoch = _EPOCH.replace(tzinfo=datetime.timezone.utc) if has_zone else _EPOCH
    number, places = (value - epoch) // _MICROSECOND, _PLACES[dtype.unit] - 6
    if places >= 0:
        return number * int(10**places)
    whole, rest = divmod(number, 10**-places)
    return None if rest else whole
