"""Drawn worlds: tiles, their sizes, tiles that are off, attempts, atoms and orders."""
from __future__ import annotations

from dataclasses import dataclass, field
from typing import Sequence

from chance import Chance
from feast_lab.recheck.limits import STATE_BITS

# So many attempts has a world at most.
MOST_MADE = 240


@dataclass
class World:
    """A drawn world: the lines of its parts, in their order."""

    across: int
    down: int
    width: int
    height: int
    off: list[int] = field(default_factory=list)
    attempts: list[str] = field(default_factory=list)
    atoms: dict[tuple[int, int], str] = field(default_factory=dict)
    orders: list[str] = field(default_factory=list)

    def lines(self) -> list[str]:
        """All lines."""
        version = "feast 2" if self.off else "feast 1"
        sizes = [version, f"tiles {self.across} {self.down}", f"size {self.width} {self.height}"]
        off = [f"off {tile}" for tile in self.off]
        atoms = [f"atom {x} {y} {said}" for (x, y), said in self.atoms.items()]
        return [*sizes, *off, *self.attempts, *atoms, *self.orders]

    def text(self) -> str:
        """The text of the file."""
        return "".join(f"{line}\n" for line in self.lines())

    def tile_of(self, x: int, y: int) -> int:
        """The tile of a site."""
        return y // self.height * self.across + x // self.width

    def tiles_on(self) -> list[int]:
        """The tiles that are not off."""
        return [tile for tile in range(self.across * self.down) if tile not in self.off]


def sizes(chance: Chance, tiles: int) -> World:
    """A plane of so many tiles, or somewhat fewer."""
    across = chance.between(1, min(tiles, 8))
    down = min(max(tiles // across, 1), 8)
    sides = [8, 8, 8, 9, 10, 16] if across * down > 4 else [8, 8, 8, 9, 11, 13, 16, 33]
    world = World(across, down, chance.one_of(sides), chance.one_of(sides))
    if across * down == 1 and chance.happens(0.05):
        world.width, world.height = chance.one_of([(64, 8), (8, 64), (64, 64)])
    if across * down > 1 and chance.happens(0.4):
        count = chance.between(1, max(across * down // 2, 1))
        world.off = sorted({chance.below(across * down) for _ in range(count)})
    return world


def site_of(chance: Chance, world: World) -> tuple[int, int]:
    """A site whose tile is on, most often near the border of tiles."""
    tile = chance.one_of(world.tiles_on())
    spots = [chance.one_of([0, 1, 3, 4, side - 1, side - 4, side - 5, chance.below(side)]) for side in (world.width, world.height)]
    return tile % world.across * world.width + spots[0], tile // world.across * world.height + spots[1]


def put_atoms(chance: Chance, world: World, names: Sequence[str]) -> None:
    """Atoms of all elements, with states most often near their ends."""
    for _ in range(chance.one_of([0, 12, 30, 60, 100])):
        said = chance.one_of(names)
        if chance.happens(0.9):
            said = f"{said} {chance.near_end(STATE_BITS):018x}"
        world.atoms.setdefault(site_of(chance, world), said)


def put_attempts(chance: Chance, world: World) -> None:
    """Attempts: drawn from a seed, or one by one, most often at atoms."""
    tiles = len(world.tiles_on())
    seed = chance.near_end(64)
    if chance.happens(0.25):
        each = max(MOST_MADE // tiles, 1)
        world.attempts = [f"seed {seed}", f"attempts {chance.one_of([0, 1, each, each])}"]
        return
    sites = list(world.atoms)
    if chance.happens(0.3):  # (few tiles make all attempts, so an order may end before they do)
        sites = [chance.one_of(sites) for _ in range(3)] if sites else []
    for number in range(chance.one_of([5, 60, MOST_MADE, MOST_MADE])):
        x, y = chance.one_of(sites) if sites and chance.happens(0.85) else site_of(chance, world)
        world.attempts.append(f"try {world.tile_of(x, y)} {x} {y} {(seed + number) % (1 << 64):016x}")


def put_orders(chance: Chance, world: World) -> None:
    """The order of a stepped run, or none."""
    drawn = chance.below(10)
    if drawn < 4:
        world.orders = [f"order seed {chance.near_end(64)}"]
    elif drawn < 8:
        tiles = world.tiles_on()
        for _ in range(chance.between(1, 3)):
            row = [chance.one_of(tiles) for _ in range(chance.one_of([1, 7, 60, 300]))]
            world.orders.append(" ".join(["order", *map(str, row)]))


def world_of(chance: Chance, names: Sequence[str], tiles: int) -> World:
    """A world with atoms of some elements."""
    world = sizes(chance, tiles)
    put_atoms(chance, world, names)
    put_attempts(chance, world)
    put_orders(chance, world)
    return world
