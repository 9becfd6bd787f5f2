"""numpy's arrays as columns, where the caller has numpy."""

from __future__ import annotations

import sys
from typing import TYPE_CHECKING, Any, List, Optional, Sequence

if TYPE_CHECKING:
    from ._types import Type

_LETTERS = {
    **{"i8": "<i1", "u8": "<u1", "i16": "<i2", "u16": "<u2", "i32": "<i4", "u32": "<u4", "i64": "<i8", "u64": "<u8"},
    **{"f32": "<f4", "f64": "<f8"},
}
"""The letters of numbers in numpy."""


def is_array(values: Any) -> bool:
    """Whether this is an array of numpy's, which is imported then."""
    numpy = sys.modules.get("numpy")
    return numpy is not None and isinstance(values, numpy.ndarray)


def is_record_array(values: Any) -> bool:
    """Whether this is an array of numpy's whose items have fields."""
    return is_array(values) and values.dtype.names is not None


def plain(value: Any) -> Any:
    """A value of numpy's as one of Python's, an array as a list; anything else as it is, and days, instants and spans of
    time, which Python has not all of.

    >>> plain("a")
    'a'
    """
    numpy = sys.modules.get("numpy")
    if numpy is None or not isinstance(value, (numpy.generic, numpy.ndarray)):
        return value
    if value is numpy.ma.masked:
        return None
    if value.dtype.kind not in "mM":
        return value.tolist()
    if value.ndim > 0:
        return [plain(item) for item in value]
    return None if numpy.isnat(value) else value


def is_instant(value: Any) -> bool:
    """Whether this is a day or an instant of numpy's."""
    numpy = sys.modules.get("numpy")
    return numpy is not None and isinstance(value, numpy.datetime64)


def in_unit(instants: Any, unit: str) -> Any:
    """The days or instants as numbers of that unit; None where one isn't a whole number of them, or too far away."""
    numpy = sys.modules["numpy"]
    if instants.dtype == numpy.dtype(f"<M8[{unit}]"):
        return instants.view("<i8")
    with numpy.errstate(all="ignore"):
        found = instants.astype(f"<M8[{unit}]")
        is_same = found.astype(instants.dtype) == instants
    return found.view("<i8") if (is_same | numpy.isnat(instants)).all() else None


def buffers_of(values: Any, dtype: Type) -> Optional[List[Any]]:
    """The buffers of an array as a column of that type, which are lent where the array has them in the type's layout:
    of numbers, truth values, days, instants and texts, and of lists of as many as an array of two dimensions has. None
    where its values aren't all of the type, or it has other ones."""
    numpy = sys.modules["numpy"]
    if values.ndim != 1:
        return _rows_of(values, dtype)
    masked = numpy.ma.getmaskarray(values) if isinstance(values, numpy.ma.MaskedArray) else None
    data = numpy.ma.getdata(values)
    if data.dtype.kind == "M":
        masked = numpy.isnat(data) if masked is None else masked | numpy.isnat(data)
    hides = masked is not None and bool(masked.any())
    if hides and not dtype.is_nullable:
        return None
    found = _values_of(data, masked if hides else None, dtype)
    return None if found is None else [_bits(~masked) if hides else b"", *found]


def _values_of(data: Any, masked: Any, dtype: Type) -> Optional[List[Any]]:
    """The buffers behind the validity."""
    numpy = sys.modules["numpy"]
    kind = data.dtype.kind
    if dtype.kind == "bool":
        return [_bits(data)] if kind == "b" else None
    if dtype.kind == ("utf8" if kind == "U" else "binary" if kind == "S" else None):
        return _texts_of(data)
    if kind == "M":
        numbers = _instants_of(data, masked, dtype)
    elif dtype.kind in _LETTERS:
        letters = numpy.dtype(_LETTERS[dtype.kind])
        numbers = (_floats_of if letters.kind == "f" else _integers_of)(data, masked, letters)
    else:
        return None
    return None if numbers is None else [numbers.view(numpy.uint8)]


def _rows_of(values: Any, dtype: Type) -> Optional[List[Any]]:
    """The buffers of an array of two dimensions as lists."""
    numpy = sys.modules["numpy"]
    if values.ndim != 2 or isinstance(values, numpy.ma.MaskedArray) or dtype.item is None:
        return None
    rows, width = values.shape
    if values.size > 2**31 - 1 or (dtype.kind == "fixed_size_list" and width != dtype.length):
        return None
    items = buffers_of(numpy.ascontiguousarray(values).reshape(-1), dtype.item)
    offsets = [] if dtype.kind == "fixed_size_list" else [(numpy.arange(rows + 1) * width).astype("<i4").view(numpy.uint8)]
    return None if items is None else [b"", *offsets, *items]


def _texts_of(data: Any) -> Optional[List[Any]]:
    """The offsets and the bytes of texts, of which numpy's end before zeros."""
    numpy = sys.modules["numpy"]
    if data.dtype.kind == "U":
        # (of no texts numpy makes an array of another type)
        data = numpy.char.encode(data, "utf-8", "surrogatepass").astype("S", copy=False)
    texts = numpy.ascontiguousarray(data)
    lengths = numpy.char.str_len(texts)
    ends = numpy.concatenate([[0], numpy.cumsum(lengths)])
    if ends[-1] > 2**31 - 1:
        return None
    width = texts.dtype.itemsize
    found = texts.view(numpy.uint8).reshape(len(texts), width)[numpy.arange(width) < lengths[:, None]]
    return [ends.astype("<i4").view(numpy.uint8), found]


def _integers_of(data: Any, masked: Any, letters: Any) -> Any:
    """The whole numbers in these letters. None of other ones, and where one that isn't masked is out of their range."""
    numpy = sys.modules["numpy"]
    is_within = data.dtype.kind in "iu" and _are_within(_shown(data, masked), numpy.iinfo(letters))
    return numpy.ascontiguousarray(data, letters) if is_within else None


def _floats_of(data: Any, masked: Any, letters: Any) -> Any:
    """The floating-point numbers, each as the nearest one in these letters, or whole numbers that the letters have. None
    of other ones, of those of more than 64 bits, and where an infinity would stand for a finite one that isn't masked."""
    numpy = sys.modules["numpy"]
    if data.dtype.kind in "iu":
        most = 2 ** (numpy.finfo(letters).nmant + 1)
        shown = _shown(data, masked)
        is_exact = shown.size == 0 or (int(shown.min()) >= -most and int(shown.max()) <= most)
        return data.astype(letters) if is_exact else None
    if data.dtype.kind != "f" or data.dtype.itemsize > 8:
        return None
    with numpy.errstate(all="ignore"):
        numbers = numpy.ascontiguousarray(data, letters)
    if data.dtype.itemsize <= letters.itemsize:
        return numbers
    too_large = numpy.isinf(numbers) & numpy.isfinite(data)
    return None if _shown(too_large, masked).any() else numbers


def _instants_of(data: Any, masked: Any, dtype: Type) -> Any:
    """The same of days, or of instants without a zone; NaT is masked."""
    numpy = sys.modules["numpy"]
    if dtype.kind not in ("date", "timestamp") or dtype.zone is not None:
        return None
    numbers = in_unit(numpy.ascontiguousarray(data), "D" if dtype.kind == "date" else dtype.unit)
    if numbers is None or dtype.kind == "timestamp":
        return numbers
    return numbers.astype("<i4") if _are_within(_shown(numbers, masked), numpy.iinfo("<i4")) else None


def _shown(data: Any, masked: Any) -> Any:
    """What isn't masked."""
    return data if masked is None else data[~masked]


def check_kind(dtype: Type, columns: Optional[Sequence[str]] = None) -> None:
    """Raises TypeError for a type whose values no array has, and KeyError for a column that rows of the type lack. Of rows
    these columns are looked at, or all."""
    if dtype.kind == "struct":
        fields = dict(dtype.fields)
        for name in fields if columns is None else columns:
            check_kind(fields[name])
        return
    is_instant = dtype.kind == "date" or (dtype.kind == "timestamp" and dtype.zone is None)
    if dtype.kind != "bool" and dtype.kind not in _LETTERS and not is_instant:
        raise TypeError(
            f"numpy's arrays are taken of numbers, truth values, days and instants without a zone, and not of values of type {dtype}"
        )


def flags_of(bits: Any, rows: int) -> Any:
    """So many bits as an array of truth values, None where there are none."""
    import numpy

    return numpy.unpackbits(numpy.frombuffer(bits, numpy.uint8), count=rows, bitorder="little").view(bool) if len(bits) else None


def both(some: Any, others: Any) -> Any:
    """Where both of these truth values hold, of which each may be None, which always holds."""
    if some is None or others is None:
        return others if some is None else some
    return some & others


def column_of(rows: int, validity: Any, values: Any, dtype: Type, shown: Any) -> Any:
    """The column of numbers or truth values as an array, which is masked where it has nulls and where it isn't shown.
    Numbers aren't copied."""
    import numpy

    if dtype.kind == "bool":
        found = flags_of(values, rows) if rows else numpy.array([], bool)
    elif dtype.kind == "date":
        found = numpy.frombuffer(values, "<i4", rows).astype("<M8[D]")
    elif dtype.kind == "timestamp":
        found = numpy.frombuffer(values, f"<M8[{dtype.unit}]", rows)
    else:
        found = numpy.frombuffer(values, _LETTERS[dtype.kind], rows)
    shown = both(shown, flags_of(validity, rows))
    return found if shown is None else numpy.ma.masked_array(found, ~shown)


def joined(parts: Sequence[Any]) -> Any:
    """The arrays as one, or the dicts of arrays as one dict."""
    if len(parts) == 1:
        return parts[0]
    if isinstance(parts[0], dict):
        return {name: joined([part[name] for part in parts]) for name in parts[0]}
    numpy = sys.modules["numpy"]
    has_masks = any(isinstance(part, numpy.ma.MaskedArray) for part in parts)
    return (numpy.ma if has_masks else numpy).concatenate(parts)


def _bits(flags: Any) -> bytes:
    """The flags as bits, the least significant of a byte first."""
    packed: bytes = sys.modules["numpy"].packbits(flags, bitorder="little").tobytes()
    return packed


def _are_within(numbers: Any, ends: Any) -> bool:
    """Whether all numbers are from the least of the ends up to the greatest."""
    if numbers.size == 0:
        return True
    own = sys.modules["numpy"].iinfo(numbers.dtype)
    if own.min >= ends.min and own.max <= ends.max:
        return True
    return bool(int(numbers.min()) >= ends.min and int(numbers.max()) <= ends.max)
