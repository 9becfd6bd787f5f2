"""Statistics of chunks, and what they decide."""

from __future__ import annotations

import enum
import json
from typing import Any, Dict, Iterable, List, Union

from ._types import to_json


class Verdict(enum.Enum):
    """Whether an expression can be true in a chunk."""

    NO_ROW = "no row"
    """It is true in no row, so the chunk needn't be read."""
    EVERY_ROW = "every row"
    """It is true in every row, so the chunk needn't be read for it."""
    TO_BE_READ = "to be read"
    """The statistics don't decide it."""


Statistics = Dict[str, Any]


def statistics(rows: int, **fields: Dict[str, Any]) -> Statistics:
    """The statistics of a chunk of so many rows: of each field any of ``nulls``, ``least`` and ``greatest``.

    >>> statistics(3, x={"nulls": 1, "greatest": 5})
    {'rows': 3, 'fields': {'x': {'nulls': 1, 'greatest': 5}}}

    The names of a field inside another one are joined by dots, and ``$`` is the whole row, so they are
    given as ``**{"a.x": ..}``.
    """
    return {"rows": rows, "fields": fields}


def to_lines(chunks: Union[str, Iterable[Statistics]]) -> bytes:
    """The statistics as lines of JSON."""
    if isinstance(chunks, str):
        return chunks.encode("utf-8", "surrogatepass")
    lines = [json.dumps(to_json(chunk), ensure_ascii=False) + "\n" for chunk in chunks]
    return "".join(lines).encode("utf-8", "surrogatepass")


def verdicts_of(page: str) -> List[Verdict]:
    """The verdicts that the lines say."""
    return [Verdict(json.loads(line)["verdict"]) for line in page.splitlines()]
