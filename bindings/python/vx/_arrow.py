"""Arrow's tables and arrays as rows, where pyarrow is installed."""

from __future__ import annotations

import dataclasses
import math
from typing import Any, Dict, Iterator, List, Mapping, Tuple

from ._batches import bits_from, number_size
from ._errors import DataError, Place
from ._library import Lent
from ._types import Type

try:
    import pyarrow
    import pyarrow.compute
except ImportError:
    pyarrow = None

_WORDS = {
    "bool": "bool",
    "date32[day]": "date",
    "float": "f32",
    "double": "f64",
    "string": "utf8",
    "large_string": "utf8",
    "string_view": "utf8",
    "binary": "binary",
    "large_binary": "binary",
    "binary_view": "binary",
    **{f"{arrow}{size}": f"{word}{size}" for arrow, word in (("int", "i"), ("uint", "u")) for size in (8, 16, 32, 64)},
}
_ATOMS = {"bool": "bool_", "f32": "float32", "f64": "float64", "date": "date32", "utf8": "string", "binary": "binary"}


def is_table(rows: Any) -> bool:
    """Whether these are rows of Arrow's."""
    return pyarrow is not None and isinstance(rows, (pyarrow.Table, pyarrow.RecordBatch))


def rows_of(table: Any) -> List[Any]:
    """The rows of a table of Arrow's."""
    rows: List[Any] = table.to_pylist()
    return rows


def is_batch(rows: Any) -> bool:
    """Whether these are rows of Arrow's, or an array of them."""
    return is_table(rows) or (pyarrow is not None and isinstance(rows, (pyarrow.Array, pyarrow.ChunkedArray)))


def _type_of(arrow: Any, is_nullable: bool) -> Type:
    kinds = pyarrow.types
    if kinds.is_dictionary(arrow):
        return _type_of(arrow.value_type, is_nullable)
    if kinds.is_struct(arrow):
        inner = [arrow.field(index) for index in range(arrow.num_fields)]
        fields = tuple((field.name, _type_of(field.type, field.nullable)) for field in inner)
        return Type("struct", is_nullable, fields=fields)
    if kinds.is_list(arrow) or kinds.is_large_list(arrow):
        return Type("list", is_nullable, _type_of(arrow.value_type, arrow.value_field.nullable))
    if kinds.is_fixed_size_list(arrow):
        item = _type_of(arrow.value_type, arrow.value_field.nullable)
        return Type("fixed_size_list", is_nullable, item, arrow.list_size)
    if kinds.is_decimal128(arrow) and 0 <= arrow.scale <= arrow.precision:
        return Type("decimal", is_nullable, precision=arrow.precision, scale=arrow.scale)
    if kinds.is_timestamp(arrow):
        return Type("timestamp", is_nullable, unit=arrow.unit, zone=arrow.tz)
    word = _WORDS.get(str(arrow))
    if word is None:
        raise TypeError(f"no expression is over values of Arrow's type {arrow}")
    return Type(word, is_nullable)


def schema_of(table: Any) -> Type:
    """The type of the table's rows."""
    fields = tuple((field.name, _type_of(field.type, field.nullable)) for field in table.schema)
    return Type("struct", fields=fields)


def _arrow_type(dtype: Type) -> Any:
    if dtype.kind == "struct":
        return pyarrow.struct(
            [pyarrow.field(name, _arrow_type(inner), inner.is_nullable) for name, inner in dtype.fields]
        )
    if dtype.item is not None:
        item = pyarrow.field("item", _arrow_type(dtype.item), dtype.item.is_nullable)
        return pyarrow.list_(item, dtype.length if dtype.kind == "fixed_size_list" else -1)
    if dtype.kind == "decimal":
        return pyarrow.decimal128(dtype.precision, dtype.scale)
    if dtype.kind == "timestamp":
        return pyarrow.timestamp(dtype.unit, dtype.zone)
    if dtype.kind in _ATOMS:
        return getattr(pyarrow, _ATOMS[dtype.kind])()
    word = "uint" if dtype.kind[0] == "u" else "int"
    return getattr(pyarrow, word + dtype.kind[1:])()


def batch_of(batch: Any, dtype: Type) -> Tuple[int, List[Lent]]:
    """How many rows there are, and their buffers, depth first: without the offsets of slices, in one chunk,
    and with the fields in the order of the type's. A field that isn't there is null in each row."""
    if isinstance(batch, pyarrow.ChunkedArray):
        batch = _one_chunk(batch)
    if is_table(batch):
        columns = dict(zip(batch.schema.names, batch.columns))
        return batch.num_rows, [b"", *_fields(columns, batch.num_rows, dtype)]
    return len(batch), list(_buffers(batch, dtype))


def _one_chunk(array: Any) -> Any:
    """The array in one chunk."""
    if not isinstance(array, pyarrow.ChunkedArray):
        return array
    return pyarrow.concat_arrays(array.chunks) if array.num_chunks else pyarrow.array([], array.type)


def _fields(columns: Mapping[str, Any], rows: int, dtype: Type) -> Iterator[Lent]:
    """The buffers of the fields of a struct type, of these columns."""
    unknown = set(columns).difference(name for name, _ in dtype.fields)
    if dtype.kind != "struct" or unknown:
        raise _refused(f"rows of type {dtype}, without {', '.join(sorted(unknown)) or 'fields'}")
    for name, inner in dtype.fields:
        column = columns.get(name)
        yield from _buffers(pyarrow.nulls(rows, _arrow_type(inner)) if column is None else _one_chunk(column), inner)


def _buffers(array: Any, dtype: Type) -> Iterator[Lent]:
    """The buffers of the array, depth first."""
    array = _plain(array, dtype)
    rows, start, buffers = len(array), array.offset, array.buffers()
    yield _bits(buffers[0], start, rows) if array.null_count else b""
    if dtype.kind == "struct":
        names = [array.type.field(index).name for index in range(array.type.num_fields)]
        yield from _fields({name: array.field(index) for index, name in enumerate(names)}, rows, dtype)
    elif dtype.kind == "list" and dtype.item is not None:
        yield from _items_of_lists(array, dtype.item)
    elif dtype.item is not None:
        yield from _buffers(array.values.slice(start * dtype.length, rows * dtype.length), dtype.item)
    elif dtype.kind == "bool":
        yield _bits(buffers[1], start, rows)
    elif dtype.kind in ("utf8", "binary"):
        yield _part(buffers[1], 4 * start, 4 * (rows + 1))
        yield buffers[2] or b""
    else:
        size = number_size(dtype.kind)
        yield _part(buffers[1], size * start, size * rows)


def _items_of_lists(array: Any, item: Type) -> Iterator[Lent]:
    """The offsets of lists, from 0 on, and the buffers of the items between them."""
    if len(array) == 0:
        yield b""
        yield from _buffers(array.values.slice(0, 0), item)
        return
    offsets = array.offsets
    first, last = offsets[0].as_py(), offsets[-1].as_py()
    from_0 = pyarrow.compute.subtract(offsets, offsets[0]).cast(pyarrow.int32())
    yield _part(from_0.buffers()[1], 4 * from_0.offset, 4 * len(from_0))
    yield from _buffers(array.values.slice(first, last - first), item)


def _plain(array: Any, dtype: Type) -> Any:
    """The array of the type, laid out in the one way in which the library reads it."""
    if pyarrow.types.is_dictionary(array.type):
        array = array.dictionary_decode()
    found = _type_of(array.type, dtype.is_nullable)
    if dataclasses.replace(found, item=None, fields=()) != dataclasses.replace(dtype, item=None, fields=()):
        raise _refused(f"values of type {dtype}, and not {found}")
    return array.cast(_arrow_type(dtype)) if dtype.kind in ("utf8", "binary") else array


def _bits(buffer: Any, start: int, length: int) -> bytes:
    return b"" if buffer is None else bits_from(buffer, start, length)


def _part(buffer: Any, start: int, length: int) -> Lent:
    """So many bytes of the buffer, which aren't copied."""
    return b"" if buffer is None else buffer.slice(start, min(length, buffer.size - start))


def _refused(expected: str) -> DataError:
    return DataError(f"error: batch: expected {expected}", Place.of_row(None))


def array_of(values: List[Any], dtype: Type) -> Any:
    """The values of that type as an array."""
    return pyarrow.array(values, _arrow_type(dtype))


def _ends(column: Any) -> Dict[str, Any]:
    known: Dict[str, Any] = {"nulls": column.null_count}
    kinds = pyarrow.types
    is_float = kinds.is_float32(column.type) or kinds.is_float64(column.type)
    if is_float or kinds.is_boolean(column.type) or kinds.is_integer(column.type):
        ends = pyarrow.compute.min_max(column).as_py()
        if ends["min"] is not None:
            least, greatest = _total_ends(column, **ends) if is_float else (ends["min"], ends["max"])
            known.update(least=least, greatest=greatest)
    return known


def _total_ends(column: Any, min: float, max: float) -> Tuple[float, float]:
    """The ends of floating-point numbers in the total order, in which -0 stands before 0 and NaN behind all: Arrow passes
    over NaN, and doesn't tell the zeros apart."""
    has_nan = pyarrow.compute.any(pyarrow.compute.is_nan(column)).as_py()
    return min or -0.0, math.nan if has_nan else max or 0.0


def statistics_of(table: Any) -> Dict[str, Any]:
    """What is known of the table's columns: their nulls, and the ends of numbers and truth values."""
    names = table.schema.names
    fields = {name: _ends(table.column(name)) for name in names if names.count(name) == 1 and "." not in name}
    return {"rows": table.num_rows, "fields": fields}
