"""Plans that are kept."""

from __future__ import annotations

import json
from typing import Any, Callable, Iterator, List, Optional, Sequence, Tuple, Union

from . import _arrow, _capsules, _numpy
from ._batches import batch_of
from ._calls import Rows, check, encoded
from ._capsules import Exported
from ._errors import counted_behind
from ._handles import Handles
from ._lent import exported_of
from ._library import Lent, column_arrow, plan_paths, plan_scope, scan_arrow, scan_plan, select_arrow, select_plan
from ._plans import paths_of
from ._results import ArrowColumn
from ._structs import ArrowArray, ArrowSchema
from ._types import type_of, values_of


class Plan:
    """A plan of scans by the expression over batches of rows of that type, made once for all of them.

    >>> import vx
    >>> with vx.Plan("x + 1", "{x=i32?, s=utf8}") as plan:
    ...     plan.paths
    ...     plan.scan({"x": [1, None], "s": ["a", "b"]})
    ...     plan.scan([{"x": 5, "s": "c"}])
    [('x',)]
    [2, None]
    [6]

    Raises as :func:`check` does.

    Any threads may use it at once, and each lets others run meanwhile. It is freed by :meth:`close`, by the end
    of a ``with`` block, or with the last reference to it, once no thread is within a call of it.
    """

    paths: List[Tuple[str, ...]]
    """The paths of the fields that are read; the empty one is the whole row."""
    type: str
    """The type of the expression."""

    def __init__(self, expression: str, schema: str) -> None:
        self._handles = Handles(encoded(expression), encoded(schema))
        with self._handles.lent() as handle:
            self.paths = paths_of(json.loads(plan_paths(handle)))
            scope = plan_scope(handle).rstrip("\n")
        self.type = check(expression, schema)
        self._schema = encoded(scope)
        self._scope = type_of(scope)

    def scan(self, batch: Rows) -> Any:
        """What the expression means at each row of the batch.

        >>> import vx
        >>> with vx.Plan("x > 5", "{x=i32}") as plan:
        ...     plan.scan([{"x": 1}, {"x": 7}])
        [False, True]

        The batch is a list of rows, a dict of columns, which may be arrays of numpy's or of numbers that have
        the buffer protocol, an array of numpy's with a name for each column, or an Arrow table, record batch
        or array; of pyarrow's an array is answered, and else a list. A column that is left out is null in each
        row, and what an array of numpy's masks is null; NaN isn't. What another library exports by
        ``__arrow_c_array__`` has all columns of the plan's type, in its order, and is read where it lies; so have
        the batches of what it exports by ``__arrow_c_stream__``, which go through one after the other.

        Raises :class:`DataError` for a row that isn't of the plan's type, :class:`FaultError` where the
        expression faults, :class:`NoPlanError` for a plan that is closed, and OSError where a stream stops. The
        ``record`` of the ``place`` says at which row, from 1 on.
        """
        dtype = type_of(self.type)
        pages = self._answers(batch, scan_plan, scan_arrow)
        values = [value for page in pages for value in values_of(page, dtype)]
        return _arrow.array_of(values, dtype) if _arrow.is_batch(batch) else values

    def select(self, batch: Rows) -> memoryview:
        """At which rows of the batch the expression is true: where it is false or null, a row isn't selected.

        >>> import vx
        >>> with vx.Plan("x > 5", "{x=i32?}") as plan:
        ...     plan.select({"x": [1, None, 7]}).tolist()
        [False, False, True]

        The batch is as :meth:`scan` takes it. The answer is a buffer of truth values, which
        ``numpy.asarray`` makes an array of without a copy. Raises as :meth:`scan` does, and
        :class:`RefusedError` for an expression that isn't of truth values.
        """
        pages = list(self._answers(batch, select_plan, select_arrow))
        return memoryview(pages[0] if len(pages) == 1 else b"".join(pages)).cast("?")

    def scan_numpy(self, batch: Rows) -> Any:
        """What the expression means at each row, as :meth:`scan`, as an array of numpy's, which is masked where it
        is null; of structs as a dict of arrays. Raises TypeError for values that numpy has no type for, as texts."""
        _numpy.check_kind(type_of(self.type))
        return _numpy.joined([column.numpy() for column in self._columns(_SCAN, batch)])

    def filter_numpy(self, batch: Rows, columns: Optional[Sequence[str]] = None) -> Any:
        """The rows of the batch at which the expression is true, as a dict of arrays of numpy's, of these columns or of
        all. Each is as :meth:`scan_numpy` answers it. Raises KeyError for a column that the plan's type lacks, and
        else as :meth:`select` and :meth:`scan_numpy` do."""
        _numpy.check_kind(self._scope, columns)
        return _numpy.joined([column.numpy(columns) for column in self._columns(_FILTER, batch)])

    def scan_arrow(self, batch: Rows) -> ArrowColumn:
        """What the expression means at each row, as :meth:`scan`, as a column for other libraries. A stream of batches is
        for :meth:`scan_batches`, and a TypeError here."""
        return self._column(_SCAN, batch)

    def filter_arrow(self, batch: Rows) -> ArrowColumn:
        """The rows of the batch at which the expression is true, as a column of the plan's type. Raises as
        :meth:`select` does, of a batch as :meth:`scan_arrow` takes it."""
        return self._column(_FILTER, batch)

    def scan_batches(self, batches: Rows) -> Iterator[ArrowColumn]:
        """What the expression means at each row of each batch of a stream, as a column for each, which is made when it is
        asked for. What stops a batch is raised then."""
        return self._columns(_SCAN, batches)

    def filter_batches(self, batches: Rows) -> Iterator[ArrowColumn]:
        """The rows of each batch of a stream at which the expression is true, as :meth:`scan_batches` answers them."""
        return self._columns(_FILTER, batches)

    def _column(self, call: str, batch: Rows) -> ArrowColumn:
        if _is_stream(batch):
            raise TypeError(f"{type(batch).__name__} has many batches: scan_batches and filter_batches take it")
        return next(self._columns(call, batch))

    def _columns(self, call: str, batch: Rows) -> Iterator[ArrowColumn]:
        """The column that the call answers of each batch."""
        answered = self.type if call == _SCAN else str(self._scope)

        def of_structs(handle: Any, schema: bytes, lent: Exported) -> ArrowColumn:
            found, array = ArrowSchema(), ArrowArray()
            column_arrow(call, handle, schema, lent, found, array)
            return ArrowColumn(answered, found, array)

        def of_buffers(handle: Any, rows: int, buffers: List[Lent]) -> ArrowColumn:
            return of_structs(handle, self._schema, exported_of(self._scope, (rows, buffers)))

        return self._answers(batch, of_buffers, of_structs)

    def _answers(self, batch: Rows, of_buffers: Callable[..., Any], of_structs: Callable[..., Any]) -> Iterator[Any]:
        """What the call on a handle answers of each batch, of buffers or of structs."""
        rows = 0
        for lent in self._batches(batch):
            with self._handles.lent() as handle, counted_behind(rows):
                if isinstance(lent, Exported):
                    answer = of_structs(handle, self._schema, lent)
                    rows += lent.rows
                else:
                    answer = of_buffers(handle, *lent)
            del lent
            yield answer

    def _batches(self, batch: Rows) -> Iterator[Union[Exported, Tuple[int, List[Lent]]]]:
        """The batch, or those of a stream; of an empty one a batch without rows."""
        if _arrow.is_batch(batch):
            yield _arrow.batch_of(batch, self._scope)
        elif _capsules.is_exporter(batch):
            yield _capsules.exported(batch)
        elif not _is_stream(batch):
            yield batch_of(batch, self._scope)
        else:
            lent = None
            for lent in _capsules.exported_batches(batch):
                yield lent
            if lent is None:
                yield batch_of([], self._scope)

    def close(self) -> None:
        """Frees the plan, as soon as no thread is within a call of it. What is closed already stays so."""
        self._handles.close()

    def __enter__(self) -> Plan:
        return self

    def __exit__(self, *_raised: object) -> None:
        self.close()


_SCAN, _FILTER = "vx_plan_scan_arrow", "vx_plan_filter_arrow"


def _is_stream(batch: Rows) -> bool:
    """Whether these are batches of a library that exports them. pyarrow's own may be of more types."""
    return _capsules.is_stream(batch) and not _arrow.is_batch(batch)
