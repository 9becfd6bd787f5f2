"""What has Python's buffer protocol, as `array.array`, as columns of numbers."""

from __future__ import annotations

import ctypes
from typing import TYPE_CHECKING, Any, List, Optional

if TYPE_CHECKING:
    from ._types import Type

_KINDS = {**dict.fromkeys("bhilqn", "i"), **dict.fromkeys("BHILQN", "u"), **dict.fromkeys("fd", "f")}
"""How the kind begins of numbers that have these letters in `struct`."""


def is_view(values: Any) -> bool:
    """Whether this has the buffer protocol, and items one behind the other.

    >>> is_view(bytearray(2)), is_view([1, 2])
    (True, False)
    """
    try:
        view = memoryview(values)
    except TypeError:
        return False
    return view.ndim == 1 and view.c_contiguous


def _kind_of(view: memoryview) -> str:
    """The kind of the items, which is none of a type's where they are no numbers.

    >>> [_kind_of(memoryview(bytes(8)).cast(letter)) for letter in "dfqBc"]
    ['f64', 'f32', 'i64', 'u8', '8']
    """
    return f"{_KINDS.get(view.format.lstrip('@=<'), '')}{8 * view.itemsize}"


def buffers_of(values: Any, dtype: Type) -> Optional[List[Any]]:
    """The buffers of what has the buffer protocol as a column of numbers of that type, which are lent. Memory that may
    only be read is copied. None where its items aren't of the type.

    >>> import array
    >>> from vx._types import type_of
    >>> validity, lent = buffers_of(array.array("f", [9.5]), type_of("f32"))
    >>> bytes(lent).hex()
    '00001841'
    >>> buffers_of(array.array("f", [9.5]), type_of("f64"))
    """
    if not is_view(values):
        return None
    view = memoryview(values)
    if _kind_of(view) != dtype.kind:
        return None
    return [b"", bytes(view) if view.readonly else (ctypes.c_char * view.nbytes).from_buffer(view)]
