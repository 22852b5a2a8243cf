"""Atoms, the plane, and worlds."""
import pathlib
from collections.abc import Iterator
from dataclasses import dataclass, field
from typing import NamedTuple

from draws import drawn_attempts

# The models are written apart from the rest, so they have this limit once more.
STATE_BITS = 71


class Atom(NamedTuple):
    """An atom: the name of its type, and its state as a number of 71 bits."""

    kind: str
    state: int = 0

    def get(self, first: int, width: int) -> int:
        """The number in some of the bits; bit 0 is the most significant one."""
        return self.state >> (STATE_BITS - first - width) & (1 << width) - 1

    def put(self, first: int, width: int, value: int) -> "Atom":
        """The atom with another number there, or with the nearest one that fits."""
        greatest = (1 << width) - 1
        shift = STATE_BITS - first - width
        rest = self.state & ~(greatest << shift)
        return Atom(self.kind, rest | min(max(value, 0), greatest) << shift)


EMPTY = Atom("Empty")


class Attempt(NamedTuple):
    """An attempt: its centre on the plane, and the seed of its event."""

    x: int
    y: int
    seed: int


@dataclass
class Plane:
    """A rectangle of sites, each with an atom."""

    width: int
    height: int
    atoms: list[Atom]

    def is_live(self, x: int, y: int) -> bool:
        """Whether there is such a site."""
        return 0 <= x < self.width and 0 <= y < self.height

    def at(self, x: int, y: int) -> Atom:
        """The atom at a site; outside the plane it is empty."""
        return self.atoms[y * self.width + x] if self.is_live(x, y) else EMPTY

    def put(self, x: int, y: int, atom: Atom) -> None:
        """Puts an atom at a site; outside the plane nothing happens."""
        if self.is_live(x, y):
            self.atoms[y * self.width + x] = atom

    def sites(self) -> Iterator[tuple[int, int, Atom]]:
        """The sites that are not empty, in row order."""
        for place, atom in enumerate(self.atoms):
            if atom.kind != "Empty":
                yield place % self.width, place // self.width, atom

    def text(self) -> str:
        """The plane as the rows of a report."""
        rows = [f"{x} {y} {atom.kind} {atom.state:018x}\n" for x, y, atom in self.sites()]
        return f"atoms {len(rows)}\n" + "".join(rows)


@dataclass
class World:
    """A world whose attempts are drawn and whose tiles are all on."""

    tiles: tuple[int, int] = (1, 1)
    size: tuple[int, int] = (8, 8)
    seed: int = 0
    attempts: int = 0
    atoms: dict[tuple[int, int], Atom] = field(default_factory=dict)
    order_seed: int | None = None

    @property
    def count(self) -> int:
        """How many tiles there are."""
        return self.tiles[0] * self.tiles[1]

    def plane(self) -> Plane:
        """The plane as it is at the start."""
        width, height = self.tiles[0] * self.size[0], self.tiles[1] * self.size[1]
        places = ((x, y) for y in range(height) for x in range(width))
        return Plane(width, height, [self.atoms.get(place, EMPTY) for place in places])

    def corner(self, tile: int) -> tuple[int, int]:
        """The site in the north-west of a tile."""
        return tile % self.tiles[0] * self.size[0], tile // self.tiles[0] * self.size[1]

    def attempts_of(self, tile: int) -> Iterator[Attempt]:
        """The attempts of a tile."""
        width, height = self.size
        left, top = self.corner(tile)
        for place, seed in drawn_attempts(self.seed + tile, width * height, self.attempts):
            yield Attempt(left + place % width, top + place // width, seed)


def read_world(path: pathlib.Path) -> World:
    """The world in a file; ValueError for a line that this model has no use for."""
    world = World()
    lines = [line.split() for line in path.read_text().splitlines() if line and line[0] != "#"]
    for words in lines[1:]:
        match words:
            case ["tiles", columns, rows]:
                world.tiles = (int(columns), int(rows))
            case ["size", columns, rows]:
                world.size = (int(columns), int(rows))
            case ["seed", seed]:
                world.seed = int(seed)
            case ["attempts", count]:
                world.attempts = int(count)
            case ["atom", x, y, kind, *state]:
                world.atoms[int(x), int(y)] = Atom(kind, int(state[0], 16) if state else 0)
            case ["order", "seed", seed]:
                world.order_seed = int(seed)
            case _:
                raise ValueError(f"{path}: the model has no line {' '.join(words)!r}")
    return world
