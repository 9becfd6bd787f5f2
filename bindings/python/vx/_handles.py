"""Handles of one plan, for as many threads as use it at once."""

from __future__ import annotations

import contextlib
import threading
import weakref
from typing import Iterator, List

from ._library import Handle, free_plan, make_plan, share_plan


class Handles:
    """A plan, by a handle that is shared under a lock, and the handles that it was shared to.

    A handle takes one call at a time. So each call borrows one, which is shared anew where all are lent: there
    are never more than threads were within calls at once.
    """

    def __init__(self, expression: bytes, schema: bytes) -> None:
        self._lock = threading.Lock()
        self._first = Handle()
        self._spare: List[Handle] = []
        self._free = weakref.finalize(self, _free, self._first, self._spare)
        make_plan(self._first, expression, schema)

    @contextlib.contextmanager
    def lent(self) -> Iterator[Handle]:
        """A handle of the plan for one call, and of none where the plan is closed."""
        with self._lock:
            handle = self._spare.pop() if self._spare else self._shared()
        try:
            yield handle
        finally:
            with self._lock:
                if self._free.alive:
                    self._spare.append(handle)
                else:
                    free_plan(handle)

    def _shared(self) -> Handle:
        handle = Handle()
        share_plan(self._first, handle)
        return handle

    def close(self) -> None:
        """Frees the plan, once the handles that are lent are back."""
        with self._lock:
            self._free()


def _free(first: Handle, spare: List[Handle]) -> None:
    free_plan(first)
    while spare:
        free_plan(spare.pop())
