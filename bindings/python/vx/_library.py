"""The calls of include/vx.h and include/vx_arrow.h, by ctypes."""

from __future__ import annotations

import ctypes
import os
import pathlib
from ctypes.util import find_library
from typing import TYPE_CHECKING, Any, Dict, List, Sequence, Tuple

from ._errors import Place, error_of

if TYPE_CHECKING:
    from ._capsules import Exported

Lent = Any
"""Bytes that are lent: `bytes`, an array of them of ctypes or of numpy's, or a buffer of pyarrow's."""

_ANSWERED, _TOO_SMALL, _OUT_OF_MEMORY = 0, 1, 2
_LEAST_ROOM = 1024


class _Place(ctypes.Structure):
    """A `vx_place`."""

    _fields_ = [
        ("text", ctypes.c_size_t),
        ("start", ctypes.c_size_t),
        ("end", ctypes.c_size_t),
        ("line", ctypes.c_size_t),
        ("column", ctypes.c_size_t),
        ("record", ctypes.c_uint64),
    ]


class _Answer(ctypes.Structure):
    """A `vx_answer`."""

    _fields_ = [("needed", ctypes.c_size_t), ("place", _Place)]


class _Buffer(ctypes.Structure):
    """A `vx_buffer`."""

    _fields_ = [("bytes", ctypes.c_void_p), ("length", ctypes.c_size_t)]


class Handle(ctypes.Structure):
    """A `vx_plan`, which holds no plan at first."""

    _fields_ = [("at", ctypes.c_void_p)]


_TEXT = (ctypes.c_char_p, ctypes.c_size_t)
_PLAN = ctypes.POINTER(Handle)
_ROOM = (ctypes.c_char_p, ctypes.c_size_t, ctypes.POINTER(_Answer))

# What each call is given.
_CALLS: Dict[str, Tuple[Any, ...]] = {
    "vx_version": _ROOM,
    "vx_fmt": (*_TEXT, *_ROOM),
    "vx_check": (*_TEXT, *_TEXT, *_ROOM),
    "vx_explain": (*_TEXT, *_TEXT, *_ROOM),
    "vx_plan_json": (*_TEXT, *_TEXT, *_ROOM),
    "vx_prune": (*_TEXT, *_TEXT, *_TEXT, *_ROOM),
    "vx_eval_json": (*_TEXT, *_TEXT, *_TEXT, *_ROOM),
    "vx_plan_new": (*_TEXT, *_TEXT, _PLAN, *_ROOM),
    "vx_plan_share": (_PLAN, _PLAN),
    "vx_plan_scope": (_PLAN, *_ROOM),
    "vx_plan_type": (_PLAN, *_ROOM),
    "vx_plan_paths": (_PLAN, *_ROOM),
    "vx_plan_scan": (_PLAN, ctypes.c_size_t, ctypes.POINTER(_Buffer), ctypes.c_size_t, *_ROOM),
    "vx_plan_select": (_PLAN, ctypes.c_size_t, ctypes.POINTER(_Buffer), ctypes.c_size_t, *_ROOM),
    "vx_schema_of_arrow": (ctypes.c_void_p, *_ROOM),
    "vx_plan_scan_arrow_json": (_PLAN, *_TEXT, ctypes.c_void_p, ctypes.c_void_p, *_ROOM),
    "vx_plan_select_arrow": (_PLAN, *_TEXT, ctypes.c_void_p, ctypes.c_void_p, *_ROOM),
    "vx_plan_scan_arrow": (_PLAN, *_TEXT, *[ctypes.c_void_p] * 4, *_ROOM),
    "vx_plan_filter_arrow": (_PLAN, *_TEXT, *[ctypes.c_void_p] * 4, *_ROOM),
    "vx_plan_free": (_PLAN,),
}


def _path() -> str:
    """The shared library: that of the variable VX_LIBRARY, one beside this file, or the system's."""
    named = os.environ.get("VX_LIBRARY")
    if named:
        return named
    beside = pathlib.Path(__file__).with_name("libvx.so")
    if beside.exists():
        return str(beside)
    found = find_library("vx")
    if found:
        return found
    raise ImportError("libvx.so isn't found: name it by the variable VX_LIBRARY")


def _opened() -> ctypes.CDLL:
    library = ctypes.CDLL(_path())
    for name, parameters in _CALLS.items():
        function = getattr(library, name)
        function.restype = None if name == "vx_plan_free" else ctypes.c_uint32
        function.argtypes = parameters
    return library


_LIBRARY = _opened()


def _answered(name: str, given: Sequence[Any], room: int) -> str:
    """The page that the call answers, as a text."""
    return _answered_bytes(name, given, room).decode("utf-8", "replace")


def _answered_bytes(name: str, given: Sequence[Any], room: int) -> bytes:
    """The page that the call answers, or an exception of what stops it. The first buffer has that much room."""
    function = getattr(_LIBRARY, name)
    answer = _Answer()
    while True:
        buffer = ctypes.create_string_buffer(room)
        status = function(*given, buffer, room, ctypes.byref(answer))
        if status != _TOO_SMALL:
            break
        room = answer.needed
    if status == _OUT_OF_MEMORY:
        raise MemoryError
    page = ctypes.string_at(buffer, answer.needed)
    if status != _ANSWERED:
        place = Place.of(*(getattr(answer.place, field) for field, _ in _Place._fields_))
        raise error_of(status, page.decode("utf-8", "replace"), place)
    return page


def _counted(texts: Sequence[bytes]) -> List[Any]:
    """Each text, and how many bytes it has."""
    return [part for text in texts for part in (text, len(text))]


def call(name: str, *texts: bytes) -> str:
    """The page that the call of that name answers of the texts, or an exception of what stops it.

    >>> call("vx_fmt", b"x between 1 and 3")
    '(1i32 <= $.x <= 3i32)\\n'
    """
    # (most pages are no longer than the texts, so that the call isn't made twice)
    return _answered(name, _counted(texts), _LEAST_ROOM + sum(map(len, texts)))


def make_plan(handle: Handle, expression: bytes, schema: bytes) -> None:
    """Has the handle hold a plan, in place of the one that it held."""
    _answered("vx_plan_new", [*_counted([expression, schema]), ctypes.byref(handle)], _LEAST_ROOM)


def share_plan(handle: Handle, other: Handle) -> None:
    """Has the other handle hold the same plan. Where the first holds none, neither does the other."""
    if _LIBRARY.vx_plan_share(ctypes.byref(handle), ctypes.byref(other)) == _OUT_OF_MEMORY:
        raise MemoryError


def plan_scope(handle: Handle) -> str:
    """The type of the plan's batches, as source text."""
    return _answered("vx_plan_scope", [ctypes.byref(handle)], _LEAST_ROOM)


def plan_paths(handle: Handle) -> str:
    """The paths that the plan reads, as JSON."""
    return _answered("vx_plan_paths", [ctypes.byref(handle)], _LEAST_ROOM)


def scan_plan(handle: Handle, rows: int, buffers: Sequence[Lent]) -> str:
    """What the plan means at the rows, as lines of JSON."""
    return _answered("vx_plan_scan", _batch(handle, rows, buffers), _room_of_numbers(rows))


def _room_of_numbers(rows: int) -> int:
    return _LEAST_ROOM + 24 * rows


def select_plan(handle: Handle, rows: int, buffers: Sequence[Lent]) -> bytes:
    """At which rows the plan is true, as a byte for each."""
    return _answered_bytes("vx_plan_select", _batch(handle, rows, buffers), _LEAST_ROOM + rows)


def _batch(handle: Handle, rows: int, buffers: Sequence[Lent]) -> List[Any]:
    """What a call on a plan and a batch is given."""
    lent = (_Buffer * len(buffers))(*(_Buffer(address_of(buffer), len(buffer)) for buffer in buffers))
    return [ctypes.byref(handle), rows, lent, len(buffers)]


def address_of(buffer: Lent) -> Any:
    """Where the bytes lie, for as long as the buffer is there."""
    if isinstance(buffer, bytes):
        return ctypes.cast(ctypes.c_char_p(buffer), ctypes.c_void_p)
    if isinstance(buffer, ctypes.Array):
        return ctypes.addressof(buffer)
    return buffer.ctypes.data if hasattr(buffer, "ctypes") else buffer.address


def arrow_schema(type: int) -> str:
    """The ArrowSchema at the address, as the text of a type."""
    return _answered("vx_schema_of_arrow", [type], _LEAST_ROOM)


def scan_arrow(handle: Handle, schema: bytes, column: Exported) -> str:
    """What the plan over that schema means at the rows, as lines of JSON."""
    given = [ctypes.byref(handle), *_counted([schema]), column.type, column.array]
    return _answered("vx_plan_scan_arrow_json", given, _room_of_numbers(column.rows))


def select_arrow(handle: Handle, schema: bytes, column: Exported) -> bytes:
    """At which rows the plan over that schema is true, as a byte for each."""
    given = [ctypes.byref(handle), *_counted([schema]), column.type, column.array]
    return _answered_bytes("vx_plan_select_arrow", given, _LEAST_ROOM + column.rows)


def column_arrow(name: str, handle: Handle, schema: bytes, column: Exported, type: Any, array: Any) -> None:
    """Has the two structs be those of the column that the call of that name answers."""
    structs = [column.type, column.array, ctypes.addressof(array), ctypes.addressof(type)]
    _answered_bytes(name, [ctypes.byref(handle), *_counted([schema]), *structs], _LEAST_ROOM)


def free_plan(handle: Handle) -> None:
    """Frees the plan, if there is one."""
    _LIBRARY.vx_plan_free(ctypes.byref(handle))
