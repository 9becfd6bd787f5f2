"""What calls raise."""

from __future__ import annotations

import contextlib
import dataclasses
from typing import Iterator, Optional

_TEXTS = {1: "expression", 2: "schema", 3: "records"}


@dataclasses.dataclass(frozen=True)
class Place:
    """A place in what a call was given.

    >>> Place(text="expression", start=4, end=5, line=1, column=5)
    Place(text='expression', start=4, end=5, line=1, column=5, record=None)
    """

    text: str
    """Which text: ``expression``, ``schema`` or ``records``, which are also statistics and rows."""
    start: int
    """The first byte of the text in UTF-8, from 0 on."""
    end: int
    """The byte behind the last."""
    line: Optional[int] = None
    """The line, from 1 on."""
    column: Optional[int] = None
    """The character within the line, from 1 on."""
    record: Optional[int] = None
    """The record or the row, from 1 on."""

    @staticmethod
    def of(text: int, start: int, end: int, line: int, column: int, record: int) -> Optional[Place]:
        """The place of these numbers, None where they tell none."""
        if text not in _TEXTS:
            return None
        return Place(_TEXTS[text], start, end, line or None, column or None, record or None)

    @staticmethod
    def of_row(row: Optional[int]) -> Place:
        """The place of that row, or of the rows as a whole."""
        return Place("records", 0, 0, record=row)


class VxError(Exception):
    """What stops a call. As a text it is the message, with the place underlined."""

    place: Optional[Place]
    """Where it is, None where that isn't told."""

    def __init__(self, message: str, place: Optional[Place] = None) -> None:
        super().__init__(message)
        self.place = place


class UnreadError(VxError):
    """The expression or the schema can't be read."""


class RefusedError(VxError):
    """The expression has no type over the schema's, or not one that the call asks for."""


class FaultError(VxError):
    """The expression faults at a row."""


class DataError(VxError):
    """A row isn't of the schema's type, or a record of statistics says none."""


class NoPlanError(VxError):
    """The plan is closed."""


_ERRORS = {3: UnreadError, 4: RefusedError, 5: FaultError, 6: DataError, 7: NoPlanError}


def error_of(status: int, message: str, place: Optional[Place]) -> VxError:
    """The exception of that status."""
    return _ERRORS[status](message, place)


@contextlib.contextmanager
def counted_behind(rows: int) -> Iterator[None]:
    """Has the place of an error count so many rows before its own."""
    try:
        yield
    except VxError as error:
        if error.place is not None and error.place.record is not None:
            error.place = dataclasses.replace(error.place, record=error.place.record + rows)
        raise
