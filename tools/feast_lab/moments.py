"""A plane at a moment."""
from collections.abc import Sequence
from dataclasses import dataclass
from functools import cached_property
from pathlib import Path
from typing import Any

import numpy

from .lab.base.errors import LabError
from .lab.formats.layout import Layout, Leaf
from .lab.formats.report import placed
from .lab.formats.world import Placed, World
from .lab.pictures.figure import plane_figure
from .lab.pictures.marks import marks_in
from .lab.pictures.tints import by_sources, tints

from . import arrays, datasets, pixels
from .arrays import Array, masked
from .cells import Cells

MOST_DRAWN = 10_000  # atoms of a picture in a notebook that is drawn as a figure; of more it is made of pixels


@dataclass(frozen=True, repr=False)
class Moment:
    """The plane of a run after some events; a notebook shows it as a picture. It has all that it needs: `texts` are the
    element files with what they had when the run was made."""

    title: str
    world: World
    layout: Layout
    texts: Sequence[tuple[Path, str]]
    events: int
    cells: Cells

    @staticmethod
    def of(title: str, world: World, layout: Layout, texts: Sequence[tuple[Path, str]], events: int, lines: Sequence[str]) -> "Moment":
        """The plane that has the atoms of the lines of a report."""
        return Moment(title, world, layout, texts, events, Cells.of(lines, layout.elements, world.rows, world.columns))

    def __repr__(self) -> str:
        return f"<Moment of {self.title} after {self.events:,} events: {len(self):,} atoms>"

    def __len__(self) -> int:
        return len(self.cells)

    @property
    def aeps(self) -> float:
        """The events so far for each site."""
        return self.events / self.world.sites

    @cached_property
    def lines(self) -> list[str]:
        """The atoms as a report has them, row by row of the plane."""
        sites, elements, columns = self.cells.sites, self.layout.elements, self.world.columns
        names = (elements[code - 1] for code in self.cells.codes.flat[sites].tolist())
        return [f"{site % columns} {site // columns} {name} {state}" for site, name, state
                in zip(sites.tolist(), names, self.cells.states(sites), strict=True)]

    @property
    def placed(self) -> list[Placed]:
        """The atoms, row by row of the plane, with their states as numbers of 71 bits."""
        return [placed(line) for line in self.lines]

    @property
    def members(self) -> list[str]:
        """The names of all members that an element of the files has."""
        return list(self.ranges)

    @property
    def ranges(self) -> dict[str, tuple[int, int]]:
        """The least and the greatest value of each member, over the elements that have it."""
        found: dict[str, tuple[int, int]] = {}
        for leaf in (leaf for element in self.layout.elements for leaf in self.layout.numbers(element)):
            least, greatest = found.get(leaf.name, (leaf.least, leaf.greatest))
            found[leaf.name] = (min(least, leaf.least), max(greatest, leaf.greatest))
        return found

    @property
    def atoms(self) -> Array:
        """The atoms as a masked array with x, y, element, state and a whole number for each member, masked where an element lacks it."""
        sites, elements = self.cells.sites, self.layout.elements
        codes = self.cells.codes.flat[sites]
        wide = max(map(len, elements), default=1)
        kinds = [("x", "u2"), ("y", "u2"), ("element", f"U{wide}"), ("state", "U18")]
        kinds += [(name, arrays.kind_of(*ends)) for name, ends in self.ranges.items()]
        values, lacks = numpy.zeros(len(sites), kinds), numpy.zeros(len(sites), [(name, "?") for name, _ in kinds])
        values["y"], values["x"] = numpy.divmod(sites, self.world.columns)
        values["element"] = numpy.array(["", *elements])[codes]
        values["state"] = self.cells.states(sites)
        for name in self.members:
            lacks[name] = True
        for code, element in enumerate(elements, 1):
            own = codes == code
            for leaf in self.layout.numbers(element):
                values[leaf.name][own] = self.cells.values(leaf, sites[own])
                lacks[leaf.name][own] = False
        found: Array = masked.array(values, mask=lacks)
        return found

    def to_pandas(self) -> Any:
        """The atoms as a frame of pandas; members are Int64 or UInt64, or objects if neither fits."""
        return arrays.frame(self.atoms, self.members)

    def to_xarray(self, members: Sequence[str] | None = None) -> Any:
        """The plane as a dataset of xarray with the dimensions y and x; see `Run.to_xarray`."""
        return datasets.dataset([self], members).isel(time=0)

    def counts(self) -> dict[str, int]:
        """How many atoms each element has."""
        elements = self.layout.elements
        found = numpy.bincount(self.cells.codes.ravel(), minlength=len(elements) + 1).tolist()
        return dict(zip(elements, found[1:], strict=True))

    def grid(self, name: str) -> Array:
        """The values of a member, `Element.member`, by row and column, masked where there is no such atom; of an element,
        `Element`, 1 where it is."""
        element, leaf = self.named(name)
        here = self.cells.codes == self.layout.elements.index(element) + 1
        found = masked.array(numpy.zeros(here.shape, arrays.kind_of(leaf.least, leaf.greatest) if leaf else "i8"), mask=True)
        found[here] = self.cells.values(leaf, numpy.flatnonzero(here)) if leaf else 1
        grid: Array = found
        return grid

    def named(self, name: str) -> tuple[str, Leaf | None]:
        """The element and the member that `Element.member` names, or `Element` alone."""
        element, _, member = name.partition(".")
        leaves = {leaf.name: leaf for leaf in self.layout.numbers(element)}
        if member and member not in leaves:
            raise LabError(f"{element} has no member {member}; it has {', '.join(leaves) or 'none'}")
        return element, leaves.get(member)

    def svg(self) -> str:
        """The plane as a figure."""
        caption = f"{self.title} after {self.events:,} events"
        marked = marks_in(self.layout.elements, self.texts)
        scales = tints(by_sources(self.layout, marked), (line.split(" ", 2)[2] for line in self.lines))
        return plane_figure(self.world, self.lines, marked, caption, scales)

    def _repr_svg_(self) -> str | None:
        return self.svg() if len(self) <= MOST_DRAWN else None

    def _repr_png_(self) -> bytes | None:
        """The plane without legend and shades, of which a figure would be large."""
        if len(self) <= MOST_DRAWN:
            return None
        return pixels.png(self.cells.codes, [mark.color for mark in marks_in(self.layout.elements, self.texts)])
