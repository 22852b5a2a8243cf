"""The stepped machine: tiles that make one step at a time, over one grid (docs/machine.md, "What a tile does").

It has one grid in place of each tile's copy: an event holds all edges to tiles that hold a site of its window, so no
other event comes between, and what it would find on its own copy is what stands on the grid.
"""
from __future__ import annotations

from dataclasses import dataclass, field
from typing import Iterable, Optional

from .plane import Plane
from .report import Abandoned, Journal, Plan, Record
from .windows import Event, Grid


@dataclass
class Tile:
    """What a tile is doing. `wanted` are the edges that its attempt needs, of which it has the first `held`; `phase` is
    what its next step does."""

    number: int
    phase: str
    taken: int = 0
    x: int = 0
    y: int = 0
    seed: int = 0
    wanted: tuple[int, ...] = ()
    held: int = 0
    given: int = 0
    stamp: int = 0
    records: list[Record] = field(default_factory=list)
    abandoned: list[Abandoned] = field(default_factory=list)


class Machine:
    """All tiles of a plane, and who holds each edge: a tile with the number of its attempt."""

    def __init__(self, plane: Plane, plan: Plan, grid: Grid, event: Event) -> None:
        self.plane = plane
        self.plan = plan
        self.grid = grid
        self.event = event
        self.holders: list[Optional[tuple[int, int]]] = [None] * len(plane.edges)
        self.clocks = [0] * len(plane.edges)
        self.tiles = [Tile(number, "draw" if attempts else "finished") for number, attempts in enumerate(plan)]
        self.steps = {
            "draw": self.draw, "lock": self.lock, "refresh": self.refresh, "behave": self.behave,
            "write": self.write, "give": self.give,
        }

    def run(self, order: Iterable[int]) -> Journal:
        """Turns to the tiles of an order, a step each, and then to each tile until it is done."""
        for number in order:
            tile = self.tiles[number]
            if tile.phase != "finished":
                self.steps[tile.phase](tile)
        for tile in self.tiles:
            while tile.phase != "finished":
                self.steps[tile.phase](tile)
        records = sorted(record for tile in self.tiles for record in tile.records)
        return Journal(records, [it for tile in self.tiles for it in tile.abandoned])

    def draw(self, tile: Tile) -> None:
        """Takes the next attempt."""
        position, tile.seed = self.plan[tile.number][tile.taken]
        tile.x, tile.y = self.plane.site_in(tile.number, position)
        tile.wanted = self.plane.needs(tile.x, tile.y)
        tile.held = tile.given = 0
        tile.taken += 1
        tile.phase = "lock" if tile.wanted else "refresh"

    def lock(self, tile: Tile) -> None:
        """Tries the next edge; an attempt that finds it held is abandoned."""
        edge = tile.wanted[tile.held]
        holder = self.holders[edge]
        if holder is None:
            self.holders[edge] = tile.number, tile.taken - 1
            tile.held += 1
            if tile.held == len(tile.wanted):
                tile.phase = "refresh"
            return
        tile.abandoned.append(Abandoned(tile.number, tile.taken - 1, tile.x, tile.y, edge, *holder))
        self.go_on(tile, "give")

    def refresh(self, tile: Tile) -> None:
        """Reads the clocks of its edges."""
        tile.stamp = max([tile.stamp, *(self.clocks[edge] for edge in tile.wanted)]) + 1
        tile.phase = "behave"

    def behave(self, tile: Tile) -> None:
        """Makes the event."""
        self.event(self.grid.place(tile.x, tile.y), tile.seed)
        tile.phase = "write"

    def write(self, tile: Tile) -> None:
        """Notes the event, and sets the clocks of its edges."""
        for edge in tile.wanted:
            self.clocks[edge] = tile.stamp
        tile.records.append(Record(tile.stamp, tile.number, tile.taken - 1, tile.x, tile.y, tile.seed))
        self.go_on(tile, "give")

    def give(self, tile: Tile) -> None:
        """Frees one edge."""
        self.holders[tile.wanted[tile.given]] = None
        tile.given += 1
        self.go_on(tile, "give")

    def go_on(self, tile: Tile, phase: str) -> None:
        """A phase while edges are held; then the attempt is over."""
        if tile.given < tile.held:
            tile.phase = phase
        else:
            tile.phase = "draw" if tile.taken < len(self.plan[tile.number]) else "finished"


def flat_run(plane: Plane, plan: Plan, grid: Grid, event: Event) -> Journal:
    """The run of a plane of one tile: each attempt is an event."""
    journal = Journal()
    for number, (position, seed) in enumerate(plan[0]):
        x, y = plane.site_in(0, position)
        event(grid.place(x, y), seed)
        journal.records.append(Record(number + 1, 0, number, x, y, seed))
    return journal
