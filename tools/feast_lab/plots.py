"""Pictures on Matplotlib: each call draws on the axes that it is given, or on new ones, and gives them back."""
from collections.abc import Sequence
from typing import Any

import numpy

from .lab.base.errors import LabError
from .lab.pictures.marks import marks_in

from . import statistics
from .arrays import Array, extra
from .moments import Moment
from .pixels import colors_of
from .runs import Run


def axes_of(axes: Any) -> Any:
    """The axes that are given, or new ones."""
    return axes if axes is not None else extra("matplotlib.pyplot", "a picture").subplots()[1]


def plot(rows: Array, columns: str | Sequence[str], x: str = "aeps", axes: Any = None, **words: Any) -> Any:
    """Columns of rows, such as those of `counts` or of a chain's `course`, over another one; `words` go to `axes.plot`."""
    axes = axes_of(axes)
    for column in [columns] if isinstance(columns, str) else columns:
        for name in (column, x):
            if name not in (rows.dtype.names or ()):
                raise LabError(f"the rows have no column {name}; they have {', '.join(rows.dtype.names or ())}")
        axes.plot(rows[x], rows[column], **{"label": column, **words})
    axes.set_xlabel(x)
    return axes


def plot_band(rows: Array, x: str, column: str = "mean", axes: Any = None, level: float = 0.95, **words: Any) -> Any:
    """Means by a column x as a line, and their intervals as a band about it.

    The rows are what `statistics.means` gives, or those of several runs, such as a sweep's, of which another column is named.
    """
    means = rows if column == "mean" else statistics.means(rows, column, by=x, level=level)
    axes = plot(means, "mean", x, axes, **{"label": column, **words})
    axes.fill_between(means[x], means["low"], means["high"], color=axes.lines[-1].get_color(), alpha=0.25, linewidth=0)
    return axes


def plot_plane(plane: Moment, axes: Any = None) -> Any:
    """A plane, each atom in the colour of its element (as a film has it), with an entry of the legend for each element."""
    axes = axes_of(axes)
    marks = marks_in(plane.layout.elements, plane.texts)
    image(axes, plane.cells.codes, [mark.color for mark in marks])
    patch = extra("matplotlib.patches", "a picture").Patch
    there = plane.counts()
    handles = [patch(color=mark.color, label=mark.name) for mark in marks if there[mark.name]]
    if handles:
        axes.legend(handles=handles, loc="upper left", bbox_to_anchor=(1, 1))
    axes.set_title(f"{plane.title} after {plane.events:,} events")
    return axes


def plot_grid(grid: Array, axes: Any = None, label: str = "", **words: Any) -> Any:
    """A grid of numbers, by row and column, as a heat map with its scale; `words` go to `axes.imshow`."""
    axes = axes_of(axes)
    shown = axes.imshow(grid, **{"interpolation": "nearest", **words})
    axes.figure.colorbar(shown, ax=axes, label=label)
    return axes


def plot_events(run: Run, axes: Any = None, abandoned: bool = False) -> Any:
    """How many events each site had as its centre, or how many attempts were given up there, as a heat map."""
    records = run.abandoned if abandoned else run.events
    label = "abandoned attempts" if abandoned else "events"
    return plot_grid(per_site(records, run.world.rows, run.world.columns), axes, label)


def plot_space_time(run: Any, every: int, row: int | None = None, column: int | None = None, axes: Any = None) -> Any:
    """One row or one column of the plane as time passes: a line of the picture for the plane after every so many events.

    `run` is a run, or a chain that keeps reports. The colours are those of elements.
    """
    if (row is None) == (column is None):
        raise LabError("a diagram of space and time is of one row or of one column")
    frames = list(run.frames(every))
    planes = [it.cells.codes for it in frames]
    high, wide = planes[0].shape
    if not 0 <= (row if row is not None else column or 0) < (high if row is not None else wide):
        raise LabError(f"the plane has the rows 0 to {high - 1} and the columns 0 to {wide - 1}")
    lines = numpy.array([it[row] if row is not None else it[:, column] for it in planes])
    axes = axes_of(axes)
    image(axes, lines, [mark.color for mark in marks_in(frames[0].layout.elements, frames[0].texts)])
    axes.set(xlabel="column" if row is not None else "row", ylabel=f"time, by {every:,} events", aspect="auto")
    return axes


def per_site(records: Array, rows: int, columns: int) -> Array:
    """How many of some records each site has, by row and column."""
    sites = records["y"].astype("i8") * columns + records["x"]
    found: Array = numpy.bincount(sites, minlength=rows * columns).reshape(rows, columns)
    return found


def image(axes: Any, codes: Array, colors: Sequence[str]) -> None:
    """Paints the codes of elements in their colours."""
    axes.imshow(colors_of(codes, colors), interpolation="nearest")
