"""What a plan of a scan is made of."""

from __future__ import annotations

import dataclasses
import json
from typing import List, Optional, Tuple


@dataclasses.dataclass(frozen=True)
class Partition:
    """A part of a plan's tree that reads one field of the rows."""

    name: str
    """The field."""
    tree: str
    """What is evaluated over it, as source text."""
    type: str
    """The type of that."""


@dataclasses.dataclass(frozen=True)
class PlanDescription:
    """A plan of a scan, in texts.

    >>> import vx
    >>> plan = vx.plan("a.x >= 1 and b < 5", "{a={x=i32, y=i32}?, b=i32, c=utf8}")
    >>> plan.paths
    [('a', 'x'), ('b',)]
    >>> plan.root
    '($.a.a_0 and $.b.b_0)'
    """

    scope: str
    """The type of the rows."""
    tree: str
    """What is evaluated, as source text."""
    type: str
    """The type of that."""
    paths: List[Tuple[str, ...]]
    """The paths of the fields that are read; the empty one is the whole row."""
    root: Optional[str]
    """What joins the partitions, None where there are none."""
    partitions: List[Partition]
    """The parts, each over one field."""

    @staticmethod
    def of_json(text: str) -> PlanDescription:
        """The plan that the line says."""
        data = json.loads(text)
        return PlanDescription(
            scope=data["scope"],
            tree=data["tree"],
            type=data["type"],
            paths=paths_of(data["paths"]),
            root=data["root"],
            partitions=[Partition(**partition) for partition in data["partitions"]],
        )


def paths_of(paths: List[List[str]]) -> List[Tuple[str, ...]]:
    """The paths that JSON has as arrays of names.

    >>> paths_of([["a", "b"], []])
    [('a', 'b'), ()]
    """
    return [tuple(path) for path in paths]
