"""Tiles and edges: who owns and holds which sites, and which edges an event needs (docs/theorem-tiles.md)."""
from __future__ import annotations

from dataclasses import dataclass
from typing import Iterator

from .windows import REACH, Grid


@dataclass(frozen=True)
class Shape:
    """How many tiles a plane has in a row and in a column, and how many columns and rows each of them has."""

    across: int
    down: int
    width: int
    height: int


class Plane:
    """A rectangle of tiles, some of which may be off. Tiles are numbered row by row, and edges by their tiles."""

    def __init__(self, shape: Shape, off: frozenset[int]) -> None:
        self.shape = shape
        self.tiles = shape.across * shape.down
        self.on = [tile not in off for tile in range(self.tiles)]
        self.edges = [(t, u) for t in range(self.tiles) for u in range(t + 1, self.tiles) if self.are_neighbours(t, u)]
        self.grid = self.blank_grid()
        self.holders = self.holders_of_sites()
        self.numbers = {ends: edge for edge, ends in enumerate(self.edges)}
        self.needed: dict[tuple[int, int], tuple[int, ...]] = {}

    def column_and_row(self, tile: int) -> tuple[int, int]:
        """Where a tile stands among the tiles."""
        return tile % self.shape.across, tile // self.shape.across

    def are_neighbours(self, t: int, u: int) -> bool:
        """Whether two tiles are on and meet, be it at a corner."""
        (a, b), (c, d) = self.column_and_row(t), self.column_and_row(u)
        return self.on[t] and self.on[u] and abs(a - c) <= 1 and abs(b - d) <= 1

    def has(self, x: int, y: int) -> bool:
        """Whether a site is in the plane."""
        return 0 <= x < self.grid.width and 0 <= y < self.grid.height

    def owner(self, x: int, y: int) -> int:
        """The tile that owns a site of the plane."""
        return y // self.shape.height * self.shape.across + x // self.shape.width

    def is_live(self, x: int, y: int) -> bool:
        """Whether a site is in the plane and its tile is on."""
        return self.has(x, y) and self.on[self.owner(x, y)]

    def site_in(self, tile: int, position: int) -> tuple[int, int]:
        """The site at a position of a tile's rectangle."""
        column, row = self.column_and_row(tile)
        width, height = self.shape.width, self.shape.height
        return column * width + position % width, row * height + position // width

    def blank_grid(self) -> Grid:
        """A grid without atoms, live where tiles are on."""
        grid = Grid(self.shape.across * self.shape.width, self.shape.down * self.shape.height)
        for tile in range(self.tiles):
            for row in range(self.shape.height) if self.on[tile] else []:
                first = grid.place(*self.site_in(tile, row * self.shape.width))
                grid.live[first : first + self.shape.width] = b"\1" * self.shape.width
        return grid

    def held(self, tile: int) -> Iterator[tuple[int, int]]:
        """The live sites that a tile holds: those of its rectangle and of four columns and rows around it."""
        column, row = self.column_and_row(tile)
        for y in range(row * self.shape.height - REACH, (row + 1) * self.shape.height + REACH):
            for x in range(column * self.shape.width - REACH, (column + 1) * self.shape.width + REACH):
                if self.has(x, y) and self.grid.live[self.grid.place(x, y)]:
                    yield x, y

    def holders_of_sites(self) -> list[int]:
        """For each place of the grid the tiles that hold it: bit t is that of tile t."""
        holders = [0] * len(self.grid.atoms)
        for tile in range(self.tiles):
            if self.on[tile]:
                for x, y in self.held(tile):
                    holders[self.grid.place(x, y)] |= 1 << tile
        return holders

    def needs(self, x: int, y: int) -> tuple[int, ...]:
        """The edges that an event at a site needs, in rising order: those between the site's owner and each other tile that
        holds a live site of the window."""
        known = self.needed.get((x, y))
        if known is None:
            place, owner, found = self.grid.place(x, y), self.owner(x, y), 0
            for offset in self.grid.offsets:
                found |= self.holders[place + offset]
            others = [u for u in range(self.tiles) if found >> u & 1 and u != owner]
            known = tuple(sorted(self.numbers[min(owner, u), max(owner, u)] for u in others))
            self.needed[x, y] = known
        return known
