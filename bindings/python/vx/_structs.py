"""The structs of Arrow's C data and C stream interfaces, and the capsules that hand them from library to library."""

from __future__ import annotations

import ctypes
import sys
from typing import Any, Callable, List

_COUNT, _POINTER = ctypes.c_int64, ctypes.c_void_p


class ArrowSchema(ctypes.Structure):
    """An ArrowSchema, which is released as long as nothing is put there."""

    _fields_ = [
        *((name, ctypes.c_char_p) for name in ("format", "name", "metadata")),
        *((name, _COUNT) for name in ("flags", "n_children")),
        ("children", ctypes.POINTER(_POINTER)),
        *((name, _POINTER) for name in ("dictionary", "release", "private_data")),
    ]


class ArrowArray(ctypes.Structure):
    """An ArrowArray in the same way."""

    _fields_ = [
        *((name, _COUNT) for name in ("length", "null_count", "offset", "n_buffers", "n_children")),
        *((name, ctypes.POINTER(_POINTER)) for name in ("buffers", "children")),
        *((name, _POINTER) for name in ("dictionary", "release", "private_data")),
    ]


class ArrowArrayStream(ctypes.Structure):
    """An ArrowArrayStream in the same way."""

    _fields_ = [(name, _POINTER) for name in ("get_schema", "get_next", "get_last_error", "release", "private_data")]


_NAMES = {ArrowSchema: b"arrow_schema", ArrowArray: b"arrow_array", ArrowArrayStream: b"arrow_array_stream"}
"""How a capsule of each is named."""

_pointer = ctypes.PYFUNCTYPE(_POINTER, ctypes.py_object, ctypes.c_char_p)(("PyCapsule_GetPointer", ctypes.pythonapi))
_new = ctypes.PYFUNCTYPE(ctypes.py_object, _POINTER, ctypes.c_char_p, _POINTER)(("PyCapsule_New", ctypes.pythonapi))
_RELEASE = ctypes.PYFUNCTYPE(None, _POINTER)


def address_in(capsule: Any, kind: Any) -> int:
    """The address of the struct of that kind which the capsule has. Raises ValueError for a capsule of another one."""
    address: int = _pointer(capsule, _NAMES[kind])
    return address


class _Struct:
    """A struct, and the capsule that it was put into, if it was."""

    def __init__(self, struct: Any, capsule: Any = None) -> None:
        self.struct = struct
        self.capsule = capsule

    def references(self, count: Callable[[Any], int] = sys.getrefcount) -> int:
        """How many there are to the capsule."""
        return count(self.capsule)

    def release(self, release: Any = _RELEASE, address_of: Any = ctypes.addressof) -> None:
        """Releases the struct, unless it was moved out."""
        if self.struct.release:
            release(self.struct.release)(address_of(self.struct))


_ALONE = _Struct(None, object()).references()
"""How many references there are to a capsule that no one else holds, which differs from one Python to the next."""
_handed_out: List[_Struct] = []
"""Structs whose owners are gone while another library held their capsules."""


class Owned:
    """A struct, which is released with the last reference to this, unless it was moved out of its capsule.

    A capsule doesn't do that itself: what it calls as it goes can't be Python's code, since an exception may be under
    way then. So one that is still held is looked at again when the next struct comes.
    """

    def __init__(self, struct: Any) -> None:
        self._it = _Struct(struct)
        for it in _handed_out[:]:
            if it.references() <= _ALONE:
                _handed_out.remove(it)
                it.release()

    @property
    def struct(self) -> Any:
        """The struct."""
        return self._it.struct

    @property
    def address(self) -> int:
        """Where it lies."""
        return ctypes.addressof(self._it.struct)

    def capsule(self) -> Any:
        """The capsule that has it, out of which another library may move it."""
        self._it.capsule = _new(self.address, _NAMES[type(self._it.struct)], None)
        return self._it.capsule

    # (this may be called when the module is gone)
    def __del__(self, alone: int = _ALONE, handed_out: Any = _handed_out) -> None:
        if self._it.capsule is not None and self._it.references() > alone:
            handed_out.append(self._it)
        else:
            self._it.release()
