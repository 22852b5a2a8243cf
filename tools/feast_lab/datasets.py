"""Planes one after another as datasets of xarray, where that is installed."""
from __future__ import annotations

from collections.abc import Iterable, Sequence
from typing import TYPE_CHECKING, Any

import numpy

from .arrays import Array, extra, masked

if TYPE_CHECKING:
    from .moments import Moment

EXACT = 1 << 53  # up to here a float has each whole number
DIMENSIONS = ("time", "y", "x")


def dataset(planes: Iterable[Moment], members: Sequence[str] | None = None, legs: Sequence[int] | None = None) -> Any:
    """Planes as a dataset with the dimensions time, y and x.

    `element` is the number of the element of each site, 0 where no atom is; its attribute `flag_meanings` has their names
    in this order. Each member has its values as floats, which are NaN where there is no such atom; a member whose values
    need more than 53 bits has Python's whole numbers and None. `members` are the ones that are wanted, all if none are named.
    Time counts in events; `aeps` goes along it, and `leg` where planes are those of ends of legs.
    """
    xarray = extra("xarray", "a dataset")
    kept = list(planes)
    first = kept[0]
    elements = first.layout.elements
    wanted = members if members is not None else [f"{it}.{leaf.name}" for it in elements for leaf in first.layout.numbers(it)]
    flags = {"flag_values": list(range(1, len(elements) + 1)), "flag_meanings": " ".join(elements)}
    data = {"element": (DIMENSIONS, numpy.array([it.cells.codes for it in kept]), flags)}
    data |= {name: (DIMENSIONS, numpy.array([floats(it, name) for it in kept]), {}) for name in wanted}
    at: dict[str, Any] = {"time": ("time", [it.events for it in kept], {"units": "events"}), "aeps": ("time", [it.aeps for it in kept])}
    at |= {"leg": ("time", list(legs))} if legs is not None else {}
    at |= {"y": numpy.arange(first.world.rows), "x": numpy.arange(first.world.columns)}
    return xarray.Dataset(data, at, {"title": first.title})


def floats(plane: Moment, name: str) -> Array:
    """The values of a member by row and column, and what stands for none where there is no such atom."""
    _, leaf = plane.named(name)
    grid: Any = plane.grid(name)
    if leaf is not None and max(-leaf.least, leaf.greatest) > EXACT:
        exact = numpy.full(grid.shape, None)
        here = ~masked.getmaskarray(grid)
        exact[here] = grid[here].tolist()
        return exact
    found: Array = grid.astype("f8").filled(numpy.nan)
    return found
