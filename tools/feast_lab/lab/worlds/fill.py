"""Worlds whose sites are filled at random."""
import re
from collections.abc import Mapping
from dataclasses import dataclass, replace
from fractions import Fraction
from random import Random

from ..base.errors import LabError
from ..formats.layout import Layout
from ..formats.world import Placed, World
from .frame import state

FILL = re.compile(r"(?P<element>\w+)=(?P<part>\d+(?:\.\d+)?|\.\d+)(?::(?P<members>.*))?", re.ASCII)


@dataclass(frozen=True)
class Fill:
    """An atom, and the part of the sites that have it, from 0 to 1."""

    element: str
    state: int
    part: Fraction

    @staticmethod
    def of(text: str, layout: Layout) -> "Fill":
        """What an option `--fill` says."""
        match = FILL.fullmatch(text)
        if match is None:
            raise LabError(f"--fill {text}: it has to be Element=PART or Element=PART:member=value,.., such as Fish=0.3")
        part = Fraction(match["part"])
        if part > 1:
            raise LabError(f"--fill {text}: a part of the sites is from 0 to 1")
        return Fill(match["element"], state(f"--fill {text}", layout, match["element"], match["members"]), part)


def scattered(world: World, fills: list[Fill], seed: int) -> list[Placed]:
    """The atoms of some fills, site by site."""
    ends = [float(sum((fill.part for fill in fills[:last]), Fraction(0))) for last in range(1, len(fills) + 1)]
    random, found = Random(seed), []
    for y in range(world.rows):
        for x in range(world.columns):
            at = random.random()
            chosen = next((fill for fill, end in zip(fills, ends, strict=True) if at < end), None)
            if chosen is not None:
                found.append(Placed(x, y, chosen.element, chosen.state))
    return found


def filled(world: World, densities: Mapping[str, Fraction], seed: int) -> World:
    """The world with an atom of each element on each empty site with the element's probability; members are 0.

    Occupied sites take a random number too. So of two densities of one element the greater has the atoms of the
    smaller and more.
    """
    taken = {(atom.x, atom.y) for atom in world.atoms}
    found = scattered(world, [Fill(element, 0, density) for element, density in densities.items()], seed)
    free = [atom for atom in found if (atom.x, atom.y) not in taken and world.tile_at(atom.x, atom.y) not in world.off]
    return replace(world, atoms=[*world.atoms, *free])
