"""Rows as the buffers of a batch, laid out as Arrow's columns are."""

from __future__ import annotations

import dataclasses
import itertools
import struct
from typing import Any, Callable, Iterator, List, Mapping, Sequence, Tuple

from . import _floats, _numpy, _views
from ._errors import DataError, Place
from ._library import Lent
from ._types import Type
from ._units import SIZES, is_whole, units_of

_INTEGERS = {"i8": "b", "u8": "B", "i16": "h", "u16": "H", "i32": "i", "u32": "I", "i64": "q", "u64": "Q"}
"""The letters of whole numbers in `struct`."""

_NUMBERS = {**_INTEGERS, **_floats.LETTERS}
"""Those of all numbers."""

_MOST_BYTES = 2**31 - 1


def number_size(kind: str) -> int:
    """How many bytes a number of that kind has, 0 where it is no number.

    >>> number_size("u16"), number_size("f64"), number_size("date"), number_size("bool")
    (2, 8, 4, 0)
    """
    if kind in SIZES:
        return SIZES[kind]
    return struct.calcsize(f"<{_NUMBERS[kind]}") if kind in _NUMBERS else 0


def bits_of(flags: Sequence[bool]) -> bytes:
    """The flags as bits, the least significant of a byte first.

    >>> bits_of([True, False, True, False, False, False, False, False, True])
    b'\\x05\\x01'
    """
    packed = bytearray((len(flags) + 7) // 8)
    for index, flag in enumerate(flags):
        if flag:
            packed[index // 8] |= 1 << index % 8
    return bytes(packed)


def bits_from(packed: Any, start: int, length: int) -> bytes:
    """So many of the bits, from that one on, as bits from the first on.

    >>> bits_from(b"\\xf0\\x0f", 4, 6)
    b'?'
    """
    first, shift = divmod(start, 8)
    part = memoryview(packed)[first : (start + length + 7) // 8]
    number = (int.from_bytes(part, "little") >> shift) & ((1 << length) - 1)
    return number.to_bytes((length + 7) // 8, "little")


def offsets_of(lengths: Sequence[int]) -> bytes:
    """Where what has these lengths begins and ends, one behind the other.

    >>> offsets_of([1, 2]).hex(" ", 4)
    '00000000 01000000 03000000'
    """
    offsets = list(itertools.accumulate(lengths, initial=0))
    if offsets[-1] > _MOST_BYTES:
        raise DataError("error: batch: expected texts and lists that end before 2147483648", Place.of_row(None))
    return struct.pack(f"<{len(offsets)}i", *offsets)


def count_of(columns: Mapping[str, Sequence[Any]]) -> int:
    """How many rows the columns have, which have to be of one length.

    >>> count_of({"x": [1, 5], "s": ["a", "b"]})
    2
    """
    lengths = {len(column) for column in columns.values()} or {0}
    if len(lengths) > 1:
        raise ValueError("the columns are of different lengths")
    return lengths.pop()


def batch_of(rows: Any, dtype: Type) -> Tuple[int, List[Lent]]:
    """How many rows there are, of a list of them, a dict of columns, an array of numpy's or a buffer of numbers, and their
    buffers, depth first. Raises :class:`DataError` for a row that isn't of the type.

    >>> from vx._types import type_of
    >>> batch_of([{"x": 1}, {"x": None}], type_of("{x=i16?}"))
    (2, [b'', b'\\x01', b'\\x01\\x00\\x00\\x00'])
    >>> batch_of({"x": [1, None]}, type_of("{x=i16?}"))
    (2, [b'', b'\\x01', b'\\x01\\x00\\x00\\x00'])
    """
    if _numpy.is_record_array(rows):
        rows = {name: rows[name] for name in rows.dtype.names}
    if not isinstance(rows, Mapping):
        values = rows if _numpy.is_array(rows) or _views.is_view(rows) else list(rows)
        return len(values), list(_buffers_of(dtype, values, ()))
    count = count_of(rows)
    unknown = sorted(set(rows).difference(name for name, _ in dtype.fields))
    if dtype.kind != "struct" or unknown:
        raise DataError(f"error: batch: expected columns of the type {dtype}", Place.of_row(None))
    fields = [(name, inner, rows.get(name, [None] * count)) for name, inner in dtype.fields]
    return count, [b"", *(buffer for name, inner, values in fields for buffer in _buffers_of(inner, values, (name,)))]


def _buffers_of(dtype: Type, values: Sequence[Any], path: Tuple[str, ...]) -> Iterator[Lent]:
    """The buffers of a column of rows, depth first."""
    lent = (_numpy if _numpy.is_array(values) else _views).buffers_of(values, dtype)
    if lent is not None:
        return iter(lent)
    listed = _numpy.plain(values)
    return _Column(dtype, listed, range(1, len(listed) + 1), path).buffers()


def _filler(dtype: Type) -> Any:
    """A value of the type, to stand where a null hides it."""
    if dtype.is_nullable:
        return None
    if dtype.kind == "struct":
        return {name: _filler(inner) for name, inner in dtype.fields}
    if dtype.kind == "fixed_size_list" and dtype.item is not None:
        return [_filler(dtype.item)] * dtype.length
    return {"bool": False, "utf8": "", "binary": b"", "list": []}.get(dtype.kind, 0)


def _test_of(dtype: Type) -> Callable[[Any], bool]:
    """Whether a value is of the kind, whatever is inside it."""
    kind = dtype.kind
    if kind in _floats.LETTERS:
        return lambda value: _floats.is_of(value, kind)
    if kind in _INTEGERS:
        bits = 8 * number_size(kind)
        least = -(1 << bits - 1) if kind[0] == "i" else 0
        most = least + (1 << bits) - 1
        return lambda value: is_whole(value) and least <= value <= most
    if kind in SIZES:
        return lambda value: units_of(value, dtype) is not None
    if kind == "struct":
        names = {name for name, _ in dtype.fields}
        return lambda value: isinstance(value, Mapping) and names.issuperset(value)
    if kind == "fixed_size_list":
        return lambda value: isinstance(value, (list, tuple)) and len(value) == dtype.length
    if kind == "bool":
        return lambda value: isinstance(_numpy.plain(value), bool)
    classes: Any = {"utf8": str, "binary": (bytes, bytearray, memoryview), "list": (list, tuple)}[kind]
    return lambda value: isinstance(value, classes)


@dataclasses.dataclass
class _Column:
    """Values that should be of the type, and the row that each is in, from 1 on."""

    dtype: Type
    values: Sequence[Any]
    rows: Sequence[int]
    path: Tuple[str, ...] = ()

    def buffers(self) -> Iterator[bytes]:
        """The buffers, depth first."""
        dtype, kind = self.dtype, self.dtype.kind
        self._check()
        values = self.values
        if any(value is None for value in values):
            yield bits_of([value is not None for value in values])
            filler = _filler(dataclasses.replace(dtype, is_nullable=False))
            values = [filler if value is None else value for value in values]
        else:
            yield b""
        if kind == "bool":
            yield bits_of(values)
        elif kind in _NUMBERS:
            yield struct.pack(f"<{len(values)}{_NUMBERS[kind]}", *values)
        elif kind in SIZES:
            yield b"".join((units_of(value, dtype) or 0).to_bytes(SIZES[kind], "little", signed=True) for value in values)
        elif kind == "struct":
            for name, inner in dtype.fields:
                fields = [value.get(name) for value in values]
                yield from _Column(inner, fields, self.rows, (*self.path, name)).buffers()
        elif dtype.item is not None:
            if kind == "list":
                yield offsets_of([len(value) for value in values])
            items = [item for value in values for item in value]
            rows = [row for value, row in zip(values, self.rows) for _ in value]
            yield from _Column(dtype.item, items, rows, self.path).buffers()
        else:
            texts = [value.encode("utf-8", "surrogatepass") if kind == "utf8" else bytes(value) for value in values]
            yield offsets_of([len(text) for text in texts])
            yield b"".join(texts)

    def _check(self) -> None:
        """Raises where a value isn't of the type, whatever is inside it."""
        is_of = _test_of(self.dtype)
        for value, row in zip(self.values, self.rows):
            if not (self.dtype.is_nullable if value is None else is_of(value)):
                at = f", at {'.'.join(self.path)}" if self.path else ""
                # (messages tell rows by their index, as the library's do, and places by their number)
                message = f"error: batch: row {row - 1}{at}: expected a value of type {self.dtype}"
                raise DataError(message, Place.of_row(row))
