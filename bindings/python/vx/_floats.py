"""Floating-point numbers of 32 and of 64 bits."""

from __future__ import annotations

import decimal
import math
import struct
from typing import Any, Union

from . import _numpy

LETTERS = {"f32": "f", "f64": "d"}
"""The letters of such numbers in `struct`."""


def is_of(value: Any, kind: str) -> bool:
    """Whether the value is a number of that kind, which a finite one too large for it isn't. A whole number is one
    where the kind has it exactly.

    >>> is_of(1e300, "f64"), is_of(1e300, "f32"), is_of(2**53, "f64"), is_of(2**53 + 1, "f64"), is_of(True, "f64")
    (True, False, True, False, False)
    """
    number = value if isinstance(value, float) else _numpy.plain(value)
    if not isinstance(number, (float, int)) or isinstance(number, bool):
        return False
    letter = "<" + LETTERS[kind]
    try:
        packed = struct.pack(letter, number)
    except (OverflowError, struct.error):
        return False
    return isinstance(number, float) or struct.unpack(letter, packed) == (number,)


def to_json(number: float) -> Union[float, str]:
    """The number as a record has it: NaN and the infinities are texts.

    >>> to_json(9.5), to_json(math.nan), to_json(-math.inf)
    (9.5, 'nan', '-inf')
    """
    return number if math.isfinite(number) else repr(number)


def from_json(value: Union[decimal.Decimal, int, str], kind: str) -> float:
    """The number of that kind which a record has so: a number, or a text of NaN, of an infinity or of its bits.

    >>> from_json(decimal.Decimal("-0.0"), "f64"), from_json("inf", "f64"), from_json("0x7e37e43c8800759c", "f64")
    (-0.0, inf, 1e+300)
    >>> from_json(decimal.Decimal("0.1"), "f32")
    0.10000000149011612
    """
    if isinstance(value, str) and value.startswith("0x"):
        number: float = struct.unpack(">" + LETTERS[kind], bytes.fromhex(value[2:]))[0]
        return number
    return float(value) if kind == "f64" else _single(decimal.Decimal(value))


def _single(number: decimal.Decimal) -> float:
    """The number of 32 bits that lies nearest.

    >>> above = decimal.Decimal(2**24 + 1) + decimal.Decimal("1e-20")
    >>> _single(above - 1), _single(above)
    (16777216.0, 16777218.0)
    """
    near = float(number)
    # (rounded twice, a number could end on the wrong side of a middle; an odd last bit says that it is on neither)
    if math.isfinite(near) and near != number and struct.pack("<d", near)[0] % 2 == 0:
        near = math.nextafter(near, math.inf if near < number else -math.inf)
    single: float = struct.unpack("<f", struct.pack("<f", near))[0]
    return single
