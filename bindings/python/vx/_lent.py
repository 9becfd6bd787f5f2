"""The buffers of a batch as a column of Arrow's C data interface, for the calls that take one."""

from __future__ import annotations

import ctypes
from typing import Any, Iterator, List, Sequence, Tuple

from ._capsules import Exported
from ._library import Lent, address_of
from ._structs import ArrowArray, ArrowSchema
from ._types import Type

_FORMATS = {
    **{"i8": "c", "u8": "C", "i16": "s", "u16": "S", "i32": "i", "u32": "I", "i64": "l", "u64": "L", "f32": "f", "f64": "g"},
    **{"bool": "b", "utf8": "u", "binary": "z", "date": "tdD", "list": "+l", "struct": "+s"},
}
_BUFFERS = {"struct": 1, "fixed_size_list": 1, "utf8": 3, "binary": 3}
"""How many buffers an array of a type has, where they aren't 2."""
_NULLABLE = 2
# (a struct with none is released; no one calls this one)
_RELEASE = ctypes.cast(ctypes.pythonapi.Py_IncRef, ctypes.c_void_p)


def _format_of(dtype: Type) -> str:
    """The format of a type, whatever is inside it.

    >>> from vx._types import type_of
    >>> [_format_of(type_of(text)) for text in ("i32?", "decimal(4, 2)", 'timestamp(ms, "UTC")', "fixed_size_list(i8)[7]")]
    ['i', 'd:4,2', 'tsm:UTC', '+w:7']
    """
    if dtype.kind == "decimal":
        return f"d:{dtype.precision},{dtype.scale}"
    if dtype.kind == "timestamp":
        return f"ts{dtype.unit[0]}:{dtype.zone or ''}"
    return f"+w:{dtype.length}" if dtype.kind == "fixed_size_list" else _FORMATS[dtype.kind]


def _pointers(structs: Sequence[Any]) -> Any:
    return (ctypes.c_void_p * len(structs))(*map(ctypes.addressof, structs))


def _schema_of(dtype: Type, name: str = "") -> ArrowSchema:
    """The struct of the type, which keeps those within it."""
    fields = dtype.fields if dtype.item is None else (("item", dtype.item),)
    inner = [_schema_of(field, name) for name, field in fields]
    children = _pointers(inner)
    schema = ArrowSchema(
        format=_format_of(dtype).encode(),
        name=name.encode(),
        flags=_NULLABLE if dtype.is_nullable else 0,
        n_children=len(inner),
        children=ctypes.cast(children, ctypes.POINTER(ctypes.c_void_p)),
        release=_RELEASE,
    )
    schema.inner = (inner, children)
    return schema


def _array_of(dtype: Type, rows: int, buffers: Iterator[Lent]) -> ArrowArray:
    """The struct of so many rows, which keeps those within it, of the buffers that come next."""
    own = [next(buffers) for _ in range(_BUFFERS.get(dtype.kind, 2))]
    addresses = (ctypes.c_void_p * len(own))(*(address_of(buffer) if len(buffer) else None for buffer in own))
    if dtype.item is not None:
        inner = [_array_of(dtype.item, _items_of(dtype, rows, own), buffers)]
    else:
        inner = [_array_of(field, rows, buffers) for _, field in dtype.fields]
    children = _pointers(inner)
    array = ArrowArray(
        length=rows,
        null_count=-1 if len(own[0]) else 0,
        n_buffers=len(own),
        n_children=len(inner),
        buffers=addresses,
        children=children,
        release=_RELEASE,
    )
    array.inner = (inner, children, addresses, own)
    return array


def _items_of(dtype: Type, rows: int, own: List[Lent]) -> int:
    """How many items the lists have."""
    if dtype.kind == "fixed_size_list":
        return dtype.length * rows
    return int.from_bytes(bytes(memoryview(own[1])[4 * rows : 4 * rows + 4]), "little")


def exported_of(dtype: Type, batch: Tuple[int, List[Lent]]) -> Exported:
    """The batch of that type, of which the rows and the buffers are given, as a column."""
    schema, array = _schema_of(dtype), _array_of(dtype, batch[0], iter(batch[1]))
    return Exported(ctypes.addressof(schema), ctypes.addressof(array), (schema, array))
