"""The expression layer of a columnar engine.

An expression is a text such as ``x >= 1 and s like "t%"``, and the type of the rows that it is over is
one such as ``{x=i32?, s=utf8}``; docs/use/SOURCE.md of the repository says how both are written.

>>> import vx
>>> vx.check("x >= 1 and x <= 5", "{x=i32?}")
'bool?'
>>> vx.evaluate("x + 1", [{"x": 1}, {"x": None}], "{x=i32?}")
[2, None]
>>> vx.prune("x > 5", [{"rows": 3, "fields": {"x": {"greatest": 5}}}], "{x=i32}")
[<Verdict.NO_ROW: 'no row'>]

A plan is made once, and scans many batches:

>>> with vx.Plan("x + 1", "{x=i32?}") as plan:
...     [plan.scan({"x": [number, None]}) for number in range(3)]
[[1, None], [2, None], [3, None]]

What a call refuses is raised as a :class:`VxError`, whose ``place`` says where:

>>> try:
...     vx.check("x + s", "{x=i32, s=utf8}")
... except vx.RefusedError as error:
...     error.place.start, error.place.end
(0, 5)
"""

from ._calls import check, evaluate, explain, fmt, plan, prune, version
from ._capsules import schema_of
from ._errors import DataError, FaultError, NoPlanError, Place, RefusedError, UnreadError, VxError
from ._kept import Plan
from ._plans import Partition, PlanDescription
from ._results import ArrowColumn
from ._statistics import Verdict, statistics

__version__ = "0.1.0"
"""The version of the package. :func:`version` answers that of the library."""

__all__ = [
    "ArrowColumn",
    "DataError",
    "FaultError",
    "NoPlanError",
    "Partition",
    "Place",
    "Plan",
    "PlanDescription",
    "RefusedError",
    "UnreadError",
    "Verdict",
    "VxError",
    "check",
    "evaluate",
    "explain",
    "fmt",
    "plan",
    "prune",
    "schema_of",
    "statistics",
    "version",
]
