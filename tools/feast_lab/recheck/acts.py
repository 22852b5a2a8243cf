"""Legs, and the acts that change a plane before them."""
from __future__ import annotations

import itertools
from dataclasses import dataclass, field
from typing import Iterator, NamedTuple, Sequence

from .draws import Attempt, xoshiro
from .limits import STATE_BITS
from .windows import Grid

WHOLE_CHANCE = 10**9


class Area(NamedTuple):
    """A rectangle of sites of a plane."""

    x: int
    y: int
    width: int
    height: int

    def places(self, grid: Grid) -> Iterator[int]:
        """Where its sites are in the grid's lists, in row order."""
        for y in range(self.y, self.y + self.height):
            first = grid.place(self.x, y)
            yield from range(first, first + self.width)


@dataclass
class Act:
    """What is done to the sites of an area: `clear`, `put`, `erase` or `flip`. `chance` is that of the last two, in parts of
    10^9; `name` and `state` are those of the atom that is put, which is `atom` once names are looked up."""

    kind: str
    area: Area
    line: int
    chance: int = 0
    name: str = ""
    state: int = 0
    atom: int = 0

    def change(self, grid: Grid, words: Iterator[int]) -> None:
        """Changes the area. Each site takes its words, be it live or not, and be it hit or not."""
        for place in self.area.places(grid):
            is_hit = self.kind in ("clear", "put") or next(words) % WHOLE_CHANCE < self.chance
            if self.kind == "flip":
                bit = STATE_BITS - 1 - next(words) % STATE_BITS
                if is_hit and grid.atoms[place]:
                    grid.atoms[place] ^= 1 << bit
            elif is_hit and grid.live[place]:
                grid.atoms[place] = self.atom


@dataclass
class Leg:
    """A run of a plane: what each tile is to make, and the seed of the order in which a stepped run turns to tiles, or the
    order itself. The acts come before it, with words from a seed of theirs. A world is one leg, with the number 0."""

    number: int
    plan: Sequence[Sequence[Attempt]]
    order_seed: int = -1
    order: Sequence[int] = ()
    acts: list[Act] = field(default_factory=list)
    acts_seed: int = 0

    def turns(self, on: Sequence[bool]) -> Iterator[int]:
        """The tiles that a stepped run is to turn to, one after another: 16 for each attempt are drawn."""
        if self.order_seed < 0:
            return iter(self.order)
        words = itertools.islice(xoshiro(self.order_seed), 16 * sum(map(len, self.plan)))
        return (tile for tile in (word % len(on) for word in words) if on[tile])

    def begin(self, grid: Grid) -> None:
        """Does the acts, with one row of words for all of them."""
        words = xoshiro(self.acts_seed)
        for act in self.acts:
            act.change(grid, words)
