"""What functions of the user's own say of planes, as columns of rows."""
from collections.abc import Callable, Iterable, Mapping
from typing import Any

import numpy

from .lab.base.errors import LabError

from .arrays import Array, masked
from .moments import Moment

Measure = Callable[[Moment], Any]  # a number or a truth value of a plane


def said(measures: Mapping[str, Measure], planes: Iterable[Moment]) -> dict[str, Array]:
    """What each of some functions says of planes, one after another."""
    rows = [[of(plane) for of in measures.values()] for plane in planes]
    found = {name: numpy.array([row[at] for row in rows]) for at, name in enumerate(measures)}
    for name, column in found.items():
        if column.ndim != 1 or column.dtype.kind not in "biuf":
            raise LabError(f"{name}: a measure has to give a number or a truth value of each plane")
    return found


def with_columns(rows: Array, columns: Mapping[str, Array]) -> Array:
    """Rows with further columns."""
    had = rows.dtype.names or ()
    for name in columns:
        if name in had:
            raise LabError(f"{name}: the rows have a column of this name")
    kinds = [*((name, rows.dtype[name]) for name in had), *((name, column.dtype) for name, column in columns.items())]
    values, lacks = numpy.empty(len(rows), kinds), numpy.zeros(len(rows), [(name, "?") for name, _ in kinds])
    for name in had:
        values[name], lacks[name] = masked.getdata(rows[name]), masked.getmaskarray(rows[name])
    for name, column in columns.items():
        values[name] = column
    found: Array = masked.array(values, mask=lacks)
    return found
