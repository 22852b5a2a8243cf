"""Colours of atoms by the value of a member: those of a scale, from the least value that comes up to the greatest."""
from collections.abc import Iterable, Mapping, Sequence
from dataclasses import dataclass
from pathlib import Path

from ..base.errors import LabError
from ..formats.layout import Layout, Leaf
from ..measure.measures import MEMBER
from .heat import LEVELS, color
from .marks import Mark, marks


@dataclass(frozen=True)
class Tint:
    """The scale of an element's atoms."""

    element: str
    leaf: Leaf
    least: int
    greatest: int

    @property
    def name(self) -> str:
        """The member, as its option names it."""
        return f"{self.element}.{self.leaf.name}"

    def color(self, state: int) -> str:
        """The colour of an atom with a state, as #rrggbb."""
        level = (self.leaf.value(state) - self.least) * (LEVELS - 1) // max(self.greatest - self.least, 1)
        return color(level / (LEVELS - 1))

    def head(self) -> dict[str, object]:
        """What the page needs of it. The ends are texts, since they may have 64 bits."""
        return {"element": self.element, "member": self.leaf.name, "least": str(self.least), "greatest": str(self.greatest),
                "colors": [color(level / (LEVELS - 1)) for level in range(LEVELS)]}


def tinted(options: Sequence[str], layout: Layout, sources: Sequence[Path]) -> dict[str, Leaf]:
    """The member by which each element is coloured: that of an option `Element.member`, or of the source's \\color-by."""
    found = by_sources(layout, marks(layout.elements, sources))
    for option in options:
        match = MEMBER.fullmatch(option)
        if match is None:
            raise LabError(f"--color {option}: it has to be Element.member")
        try:
            found[match["element"]] = layout.leaf(match["element"], match["member"])
        except LabError as error:
            raise LabError(f"--color {option}: {error}") from error
    return found


def by_sources(layout: Layout, marked: Sequence[Mark]) -> dict[str, Leaf]:
    """The members that sources name, by their elements."""
    return {mark.name: of_source(layout, mark) for mark in marked if mark.color_by}


def of_source(layout: Layout, mark: Mark) -> Leaf:
    """The member that a source names."""
    try:
        return layout.leaf(mark.name, mark.color_by)
    except LabError as error:
        raise LabError(f"\\color-by {mark.color_by}: {error}") from error


def tints(leaves: Mapping[str, Leaf], atoms: Iterable[str]) -> dict[str, Tint]:
    """The scales over these atoms, each `NAME STATE`; an element without an atom has none."""
    values: dict[str, set[int]] = {}
    for atom in set(atoms):
        name, _, state = atom.partition(" ")
        if name in leaves:
            values.setdefault(name, set()).add(leaves[name].value(int(state, 16)))
    return {name: Tint(name, leaves[name], min(found), max(found)) for name, found in values.items()}
