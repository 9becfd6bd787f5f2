"""Columns of other libraries by Arrow's PyCapsule interface, for the calls of include/vx_arrow.h."""

from __future__ import annotations

import ctypes
import dataclasses
from typing import Any, Iterator

from ._library import arrow_schema
from ._structs import ArrowArray, ArrowArrayStream, ArrowSchema, Owned, address_in


@dataclasses.dataclass
class Exported:
    """A column, for as long as its owner is there: this releases the structs."""

    type: int
    """The address of its ArrowSchema."""
    array: int
    """The address of its ArrowArray."""
    owner: Any

    @property
    def rows(self) -> int:
        """How many rows it says it has."""
        rows: int = ArrowArray.from_address(self.array).length
        return max(0, rows)

    def __del__(self) -> None:
        # (no exception is under way in here, which would stop a release in Python's code)
        self.owner = None


def is_exporter(batch: Any) -> bool:
    """Whether this is a column or a batch of a library that exports Arrow's."""
    return hasattr(batch, "__arrow_c_array__")


def is_stream(batches: Any) -> bool:
    """Whether this is a table or a reader of a library that exports batches one after the other, or opened already."""
    return isinstance(batches, OpenStream) or (hasattr(batches, "__arrow_c_stream__") and not is_exporter(batches))


def exported(batch: Any) -> Exported:
    """The column that the library exports."""
    capsules = batch.__arrow_c_array__()
    return Exported(address_in(capsules[0], ArrowSchema), address_in(capsules[1], ArrowArray), capsules)


# (these let other threads run, as a library may need that to read its batches)
_ASK = ctypes.CFUNCTYPE(ctypes.c_int, ctypes.c_void_p, ctypes.c_void_p)
_TOLD = ctypes.CFUNCTYPE(ctypes.c_char_p, ctypes.c_void_p)


class OpenStream:
    """The batches that a library exports, for as long as the capsule is there: this releases the stream."""

    def __init__(self, batches: Any) -> None:
        self._capsule: Any = batches.__arrow_c_stream__()
        self._address = address_in(self._capsule, ArrowArrayStream)
        self._struct = ArrowArrayStream.from_address(self._address)
        if not self._struct.release:
            raise ValueError("the stream was read before")

    def __del__(self) -> None:
        # (as of a column)
        self._capsule = None

    def schema(self) -> Owned:
        """The type of all batches."""
        return Owned(self._asked(self._struct.get_schema, ArrowSchema()))

    def arrays(self) -> Iterator[Owned]:
        """The batches, of which each is read when it is asked for."""
        while True:
            array = self._asked(self._struct.get_next, ArrowArray())
            if not array.release:
                return
            yield Owned(array)

    def _asked(self, ask: int, struct: Any) -> Any:
        """The struct, as the stream fills it."""
        number = _ASK(ask)(self._address, ctypes.addressof(struct))
        if number != 0:
            told = self._struct.get_last_error and _TOLD(self._struct.get_last_error)(self._address)
            raise OSError(number, (told or b"the stream stops").decode("utf-8", "replace"))
        return struct


def opened(batches: Any) -> OpenStream:
    """The stream of the batches, as a library may export them once."""
    return batches if isinstance(batches, OpenStream) else OpenStream(batches)


def exported_batches(batches: Any) -> Iterator[Exported]:
    """The batches that the library exports, each read when it is asked for. Raises OSError where the library stops."""
    stream = opened(batches)
    schema = stream.schema()
    for array in stream.arrays():
        yield Exported(schema.address, array.address, (schema, array))


def schema_of(columns: Any) -> str:
    """The type of a column, a batch or a type of another library, as the text that calls take for a schema:
    of what has ``__arrow_c_schema__``, ``__arrow_c_array__`` or ``__arrow_c_stream__``, such as pyarrow's schemas,
    types, batches and tables.

    Raises :class:`DataError` for a type that no expression is over, with its path.
    """
    if hasattr(columns, "__arrow_c_schema__"):
        capsule = columns.__arrow_c_schema__()
    elif is_exporter(columns):
        capsule = columns.__arrow_c_array__()[0]
    elif is_stream(columns):
        schema = opened(columns).schema()
        return arrow_schema(schema.address)
    else:
        raise TypeError(f"{type(columns).__name__} has no __arrow_c_schema__")
    return arrow_schema(address_in(capsule, ArrowSchema))
