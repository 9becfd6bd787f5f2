"""Columns that calls answer, for other libraries by Arrow's PyCapsule interface, and for numpy."""

from __future__ import annotations

import ctypes
from typing import Any, Optional, Sequence, Tuple

from . import _numpy
from ._batches import number_size
from ._structs import ArrowArray, ArrowSchema, Owned
from ._types import Type, type_of


def _lent(address: Any, length: int, owner: Owned) -> Any:
    """So many bytes at the address, for as long as the owner is there."""
    if not address:
        return b""
    memory: Any = (ctypes.c_char * length).from_address(address)
    memory.owner = owner
    return memory


def _numpy_of(
    array: ArrowArray, dtype: Type, owner: Owned, columns: Optional[Sequence[str]] = None, shown: Any = None
) -> Any:
    """The column as an array of numpy's, which is masked where it or what is around it is null; a struct as a dict of
    these columns, or of all."""
    bits = (array.length + 7) // 8
    validity = _lent(array.buffers[0], bits, owner)
    if dtype.kind != "struct":
        size = number_size(dtype.kind)
        values = _lent(array.buffers[1], size * array.length or bits, owner)
        return _numpy.column_of(array.length, validity, values, dtype, shown)
    shown = _numpy.both(shown, _numpy.flags_of(validity, array.length))
    found = {}
    for index, (name, inner) in enumerate(dtype.fields):
        if columns is None or name in columns:
            child = ArrowArray.from_address(array.children[index])
            found[name] = _numpy_of(child, inner, owner, shown=shown)
    return found


class ArrowColumn:
    """A column that a plan answered, for any library that takes Arrow's PyCapsule interface, as
    ``pyarrow.array(column)`` or ``polars.Series(column)``. It is handed out once, and not copied."""

    type: str
    """The type of its values."""

    def __init__(self, type: str, schema: ArrowSchema, array: ArrowArray) -> None:
        self.type = type
        self._rows: int = array.length
        self._schema, self._array = Owned(schema), Owned(array)
        self._is_handed_out = False

    def __len__(self) -> int:
        return self._rows

    def __arrow_c_array__(self, requested_schema: Any = None) -> Tuple[Any, Any]:
        """The capsules of its type and its array. Raises ValueError where they were handed out before."""
        self._hand_out()
        return self._schema.capsule(), self._array.capsule()

    def numpy(self, columns: Optional[Sequence[str]] = None) -> Any:
        """The column, handed out as an array of numpy's, which is masked where it has nulls; of rows a dict of arrays,
        of these columns where some are named. Raises TypeError for values that numpy has no type for, as texts."""
        dtype = type_of(self.type)
        _numpy.check_kind(dtype, columns)
        self._hand_out()
        return _numpy_of(self._array.struct, dtype, self._array, columns)

    def _hand_out(self) -> None:
        if self._is_handed_out:
            raise ValueError("the column was handed out before")
        self._is_handed_out = True
