"""The window of an event: its 41 sites, and a plane of atoms in which it lies (docs/machine.md, "Atoms and windows").

An atom is one number: its type number, and then its 71 bits of state. The empty atom is 0.
"""
from __future__ import annotations

from typing import Callable

from .limits import STATE_BITS

# Makes an event at a place of a grid, with its seed.
Event = Callable[[int, int], None]

REACH = 4

# The offsets (dx, dy) of the sites: by distance, then by column, then by row.
SITES = sorted(
    ((dx, dy) for dx in range(-REACH, REACH + 1) for dy in range(-REACH, REACH + 1) if abs(dx) + abs(dy) <= REACH),
    key=lambda site: (abs(site[0]) + abs(site[1]), site),
)


class Grid:
    """The atoms of a plane, row by row, with four columns and rows around it that are not live. So each site of each
    window has a place in the lists, and whoever looks there needs no test of the plane's ends."""

    def __init__(self, width: int, height: int) -> None:
        self.width = width
        self.height = height
        self.stride = width + 2 * REACH
        self.atoms = [0] * (self.stride * (height + 2 * REACH))
        self.live = bytearray(len(self.atoms))
        self.offsets = [dy * self.stride + dx for dx, dy in SITES]

    def place(self, x: int, y: int) -> int:
        """Where a site is in the lists."""
        return (y + REACH) * self.stride + x + REACH

    def sites(self) -> list[tuple[int, int, int]]:
        """Each site that isn't empty, in row order: its column, its row and its atom."""
        found = []
        for y in range(self.height):
            first = self.place(0, y)
            row = self.atoms[first : first + self.width]
            found += [(x, y, atom) for x, atom in enumerate(row) if atom]
        return found

    def copy(self) -> "Grid":
        """Another grid with the same atoms."""
        other = Grid(self.width, self.height)
        other.atoms[:] = self.atoms
        other.live[:] = self.live
        return other


def atom(kind: int, state: int) -> int:
    """The atom of a type with a state."""
    return kind << STATE_BITS | state


def kind_of(it: int) -> int:
    """The type number of an atom."""
    return it >> STATE_BITS


def state_of(it: int) -> int:
    """The state of an atom."""
    return it & (1 << STATE_BITS) - 1
