"""The calls."""

from __future__ import annotations

import json
from typing import Any, Iterable, List, Mapping, Optional, Sequence, Union

from . import _arrow, _capsules, _numpy
from ._batches import count_of
from ._library import call
from ._plans import PlanDescription
from ._statistics import Statistics, Verdict, to_lines, verdicts_of
from ._types import to_json, type_of, values_of

Rows = Union[Sequence[Any], Mapping[str, Sequence[Any]], Any]
"""Rows: a list of them, a dict of columns, an array of numpy's, a buffer of numbers, or an Arrow table."""


def encoded(text: str) -> bytes:
    """The text in UTF-8. Half of a surrogate pair is handed on, for the library to refuse it at its place."""
    return text.encode("utf-8", "surrogatepass")


def version() -> str:
    """The version of the library.

    >>> version()
    '0.1.0'
    """
    return call("vx_version").strip()


def check(expression: str, schema: str) -> str:
    """The type of the expression over rows of that type.

    >>> check("x = 1", "{x=i32}"), check("price > 9.99", "{price=f64?}")
    ('bool', 'bool?')

    Raises :class:`UnreadError` for a text that can't be read, and :class:`RefusedError` for an
    expression that has no type.
    """
    return call("vx_check", encoded(expression), encoded(schema)).rstrip("\n")


def fmt(expression: str) -> str:
    """The source text of the expression, which reads back to it.

    >>> fmt("x between 1 and 3")
    '(1i32 <= $.x <= 3i32)'

    Raises :class:`UnreadError`.
    """
    return call("vx_fmt", encoded(expression)).rstrip("\n")


def explain(expression: str, schema: str) -> str:
    """What becomes of the expression over rows of that type, for a person to read.

    >>> print(explain("x >= 1", "{x=i32}").splitlines()[1])
    type: bool

    Raises as :func:`check` does.
    """
    return call("vx_explain", encoded(expression), encoded(schema))


def plan(expression: str, schema: str) -> PlanDescription:
    """The plan of a scan by the expression over rows of that type, in texts. :class:`Plan` is one that scans.

    >>> plan("x >= 1", "{x=i32, y=utf8}").paths
    [('x',)]

    Raises as :func:`check` does.
    """
    return PlanDescription.of_json(call("vx_plan_json", encoded(expression), encoded(schema)))


def prune(
    expression: str,
    chunks: Union[str, Iterable[Statistics], Any],
    schema: Optional[str] = None,
) -> List[Verdict]:
    """What the statistics of each chunk of rows decide of the expression, which is of truth values.

    >>> chunks = [{"rows": 3, "fields": {"x": {"greatest": 5}}}, {"rows": 4}]
    >>> prune("x > 5", chunks, "{x=i32}")
    [<Verdict.NO_ROW: 'no row'>, <Verdict.TO_BE_READ: 'to be read'>]

    The statistics are dicts, see :func:`statistics`, or a text of lines of JSON; the schema says the
    type of the rows. Or they are a list of Arrow tables, or one, whose statistics are taken; then the
    schema may be left out.

    Raises as :func:`check` does, and :class:`DataError` for what are no statistics.
    """
    if _arrow.is_table(chunks):
        chunks = [chunks]
    if not isinstance(chunks, str):
        chunks = list(chunks)
        tables = [chunk for chunk in chunks if _arrow.is_table(chunk)]
        if schema is None and tables:
            schema = str(_arrow.schema_of(tables[0]))
        chunks = [_arrow.statistics_of(it) if _arrow.is_table(it) else it for it in chunks]
    if schema is None:
        raise TypeError("the schema is left out, and no table says it")
    return verdicts_of(call("vx_prune", encoded(expression), encoded(schema), to_lines(chunks)))


def evaluate(expression: str, rows: Rows, schema: Optional[str] = None) -> Any:
    """What the expression means at each row.

    >>> evaluate("x + 1", [{"x": 1}, {"x": 5}], "{x=i32}")
    [2, 6]
    >>> evaluate("x + 1", {"x": [1, 5]}, "{x=i32}")
    [2, 6]

    The rows are a list, a dict of columns, a table of pyarrow's, or what another library exports by
    ``__arrow_c_array__`` or ``__arrow_c_stream__``; of a table an array is answered, and else a list. The
    schema says their type; that of a table and of what is exported may be left out. A struct is a dict, a
    list a list, binary data bytes, and a floating-point number a float.

    Raises as :func:`check` does, :class:`DataError` for a row that isn't of the type, and
    :class:`FaultError` where the expression faults; the ``record`` of its ``place`` says at which row,
    from 1 on.
    """
    is_table = _arrow.is_table(rows)
    if not is_table and (_capsules.is_exporter(rows) or _capsules.is_stream(rows)):
        return _evaluate_exported(expression, rows, schema)
    if is_table and schema is None:
        schema = str(_arrow.schema_of(rows))
    if schema is None:
        raise TypeError("the schema is left out, and no table says it")
    found = _arrow.rows_of(rows) if is_table else _rows_of(rows)
    lines = [json.dumps(to_json(row), ensure_ascii=False) + "\n" for row in found]
    page = call("vx_eval_json", encoded(expression), encoded(schema), encoded("".join(lines)))
    dtype = type_of(check(expression, schema))
    values = values_of(page, dtype)
    return _arrow.array_of(values, dtype) if is_table else values


def _evaluate_exported(expression: str, rows: Any, schema: Optional[str]) -> List[Any]:
    """What the expression means at each row of what another library exports."""
    # (a plan is made by the calls of this module)
    from ._kept import Plan

    batches = _capsules.opened(rows) if _capsules.is_stream(rows) else rows
    with Plan(expression, _capsules.schema_of(batches) if schema is None else schema) as plan:
        values: List[Any] = plan.scan(batches)
        return values


def _rows_of(rows: Any) -> List[Any]:
    """The rows, also those of a dict of columns, and of arrays of numpy's."""
    if _numpy.is_record_array(rows):
        rows = {name: rows[name] for name in rows.dtype.names}
    if not isinstance(rows, Mapping):
        return list(_numpy.plain(rows))
    count_of(rows)
    return [dict(zip(rows, values)) for values in zip(*map(_numpy.plain, rows.values()))]
