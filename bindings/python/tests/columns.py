"""A producer of Arrow's PyCapsule interface, written from its specification: structs by ctypes, over any buffers
that Python has, numpy's arrays among them. Nothing of it is `vx`'s."""

import ctypes
import dataclasses
from typing import Any, List, Optional, Tuple

NULLABLE = 2


class ArrowSchema(ctypes.Structure):
    pass


class ArrowArray(ctypes.Structure):
    pass


class ArrowArrayStream(ctypes.Structure):
    pass


_RELEASE_SCHEMA = ctypes.CFUNCTYPE(None, ctypes.POINTER(ArrowSchema))
_RELEASE_ARRAY = ctypes.CFUNCTYPE(None, ctypes.POINTER(ArrowArray))
_RELEASE_STREAM = ctypes.CFUNCTYPE(None, ctypes.POINTER(ArrowArrayStream))
_GET_SCHEMA = ctypes.CFUNCTYPE(ctypes.c_int, ctypes.POINTER(ArrowArrayStream), ctypes.POINTER(ArrowSchema))
_GET_NEXT = ctypes.CFUNCTYPE(ctypes.c_int, ctypes.POINTER(ArrowArrayStream), ctypes.POINTER(ArrowArray))
_GET_ERROR = ctypes.CFUNCTYPE(ctypes.c_void_p, ctypes.POINTER(ArrowArrayStream))

ArrowSchema._fields_ = [
    ("format", ctypes.c_char_p),
    ("name", ctypes.c_char_p),
    ("metadata", ctypes.c_char_p),
    ("flags", ctypes.c_int64),
    ("n_children", ctypes.c_int64),
    ("children", ctypes.POINTER(ctypes.POINTER(ArrowSchema))),
    ("dictionary", ctypes.POINTER(ArrowSchema)),
    ("release", _RELEASE_SCHEMA),
    ("private_data", ctypes.c_void_p),
]
ArrowArray._fields_ = [
    ("length", ctypes.c_int64),
    ("null_count", ctypes.c_int64),
    ("offset", ctypes.c_int64),
    ("n_buffers", ctypes.c_int64),
    ("n_children", ctypes.c_int64),
    ("buffers", ctypes.POINTER(ctypes.c_void_p)),
    ("children", ctypes.POINTER(ctypes.POINTER(ArrowArray))),
    ("dictionary", ctypes.POINTER(ArrowArray)),
    ("release", _RELEASE_ARRAY),
    ("private_data", ctypes.c_void_p),
]
ArrowArrayStream._fields_ = [
    ("get_schema", _GET_SCHEMA),
    ("get_next", _GET_NEXT),
    ("get_last_error", _GET_ERROR),
    ("release", _RELEASE_STREAM),
    ("private_data", ctypes.c_void_p),
]

_DESTROY = ctypes.PYFUNCTYPE(None, ctypes.c_void_p)
_new = ctypes.PYFUNCTYPE(ctypes.py_object, ctypes.c_void_p, ctypes.c_char_p, _DESTROY)(
    ("PyCapsule_New", ctypes.pythonapi)
)
_pointer = ctypes.PYFUNCTYPE(ctypes.c_void_p, ctypes.c_void_p, ctypes.c_char_p)(
    ("PyCapsule_GetPointer", ctypes.pythonapi)
)

live = {}
"""What belongs to each struct that isn't released, by its `private_data`, wherever it was moved to."""


def _owned(struct: Any) -> Any:
    struct.private_data = ctypes.addressof(struct)
    live[struct.private_data] = struct
    return struct


def _release(struct: Any) -> None:
    live.pop(struct.contents.private_data)
    ctypes.memset(ctypes.addressof(struct.contents) + type(struct.contents).release.offset, 0, 8)


_release_schema = _RELEASE_SCHEMA(_release)
_release_array = _RELEASE_ARRAY(_release)
_release_stream = _RELEASE_STREAM(_release)


def _destroyer(name: bytes, struct: Any) -> Any:
    """What a capsule calls as it goes: the release of its struct, unless that was moved out."""

    @_DESTROY
    def destroy(capsule: int) -> None:
        held = struct.from_address(_pointer(capsule, name))
        if held.release:
            held.release(ctypes.byref(held))

    return destroy


_destroy_schema = _destroyer(b"arrow_schema", ArrowSchema)
_destroy_array = _destroyer(b"arrow_array", ArrowArray)
_destroy_stream = _destroyer(b"arrow_array_stream", ArrowArrayStream)


def _address(buffer: Any) -> Optional[int]:
    if buffer is None or len(buffer) == 0:
        return None
    if hasattr(buffer, "ctypes"):
        return buffer.ctypes.data
    return ctypes.addressof(ctypes.c_char.from_buffer(buffer))


@dataclasses.dataclass
class Column:
    """A column: its format, and its buffers, which are None, bytearrays, or arrays of numpy's."""

    format: str
    rows: int
    buffers: List[Any]
    children: List[Tuple[str, "Column"]] = dataclasses.field(default_factory=list)
    is_nullable: bool = True
    offset: int = 0
    nulls: int = -1

    def _schema(self, name: str) -> ArrowSchema:
        inner = [child._schema(name) for name, child in self.children]
        children = (ctypes.POINTER(ArrowSchema) * len(inner))(*map(ctypes.pointer, inner))
        schema = ArrowSchema(
            format=self.format.encode(),
            name=name.encode(),
            flags=NULLABLE if self.is_nullable else 0,
            n_children=len(inner),
            children=children,
            release=_release_schema,
        )
        schema.kept = (inner, children)
        return schema

    def _array(self) -> ArrowArray:
        inner = [child._array() for _, child in self.children]
        children = (ctypes.POINTER(ArrowArray) * len(inner))(*map(ctypes.pointer, inner))
        buffers = (ctypes.c_void_p * len(self.buffers))(*map(_address, self.buffers))
        array = ArrowArray(
            length=self.rows,
            null_count=0 if self.buffers[0] is None else self.nulls,
            offset=self.offset,
            n_buffers=len(buffers),
            n_children=len(inner),
            buffers=buffers,
            children=children,
            release=_release_array,
        )
        array.kept = (inner, children, buffers, self.buffers)
        return array

    def __arrow_c_schema__(self) -> Any:
        schema = _owned(self._schema(""))
        return _new(ctypes.addressof(schema), b"arrow_schema", _destroy_schema)

    def __arrow_c_array__(self, requested_schema: Any = None) -> Tuple[Any, Any]:
        array = _owned(self._array())
        return self.__arrow_c_schema__(), _new(ctypes.addressof(array), b"arrow_array", _destroy_array)


def record_batch(rows: int, offset: int = 0, **columns: Column) -> Column:
    """A batch of the columns, of which each has as many rows behind that offset."""
    return Column("+s", rows, [None], list(columns.items()), False, offset)


@dataclasses.dataclass
class Stream:
    """Batches one after the other, of the type of one that is named or of the first, and what stops them then, if anything
    does: a number and a text."""

    batches: List[Column]
    ends_with: Tuple[int, Optional[bytes]] = (0, None)
    type: Optional[Column] = None

    def __arrow_c_stream__(self, requested_schema: Any = None) -> Any:
        left = list(self.batches)

        def get_schema(_stream: Any, schema: Any) -> int:
            return _put((self.type or self.batches[0])._schema(""), schema)

        def get_next(_stream: Any, array: Any) -> int:
            if left:
                return _put(left.pop(0)._array(), array)
            array.contents.release = _RELEASE_ARRAY()
            return self.ends_with[0]

        message = self.ends_with[1] and ctypes.create_string_buffer(self.ends_with[1])
        stream = ArrowArrayStream(
            get_schema=_GET_SCHEMA(get_schema),
            get_next=_GET_NEXT(get_next),
            get_last_error=_GET_ERROR(lambda _stream: message and ctypes.addressof(message)),
            release=_release_stream,
        )
        _owned(stream)
        return _new(ctypes.addressof(stream), b"arrow_array_stream", _destroy_stream)


def _put(struct: Any, place: Any) -> int:
    """Puts the struct at a place that a consumer says, where it is released."""
    ctypes.memmove(place, ctypes.byref(_owned(struct)), ctypes.sizeof(struct))
    return 0
