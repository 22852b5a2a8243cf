"""Chains for the tests: some that are written, and some that are drawn from a seed."""
import random
from collections.abc import Iterator
from dataclasses import replace

from chain import BILLION, Act, Area, Attempts, Chain, Clear, Erase, Flip, Put
from chain_text import LAST_LEG
from draws import MASK
from plane import Atom

# Elements that move, that stay, and whose events fail at times.
ELEMENTS = """\
element Mouse { EventWindow ew; Random random; Unsigned(5) steps; Void behave() {
  steps++; Unsigned i = random.create(4) + 1; if (ew.isEmpty(i)) ew.swap(0, i); } }
element Wall { Void behave() { } }
element Fuse { EventWindow ew; Unsigned(3) length; Void behave() {
  length = length - 1; ew[4] = self; Unsigned rest = 6u / length; } }
"""
NAMES = ("Mouse", "Wall", "Fuse")
MOUSE, WALL, FUSE = Atom("Mouse"), Atom("Wall", 1), Atom("Fuse", 5 << 68)

ONE_TILE = Chain(
    seed=5, attempts=6, legs=4, atoms={(3, 4): MOUSE, (6, 1): Atom("Mouse", 3), (0, 7): WALL, (2, 2): FUSE},
    every=((2, Flip(BILLION // 4, Area(0, 0, 8, 8))), (1, Put(Area(7, 7, 1, 1), MOUSE))),
    once=((2, Erase(BILLION // 2, Area(0, 0, 8, 4))), (2, Flip(BILLION, Area(2, 2, 4, 4))), (3, Clear(Area(6, 6, 2, 2))),
          (3, Attempts(2)), (3, Put(Area(0, 0, 3, 2), WALL)), (3, Attempts(40))),
)
FOUR_TILES = Chain(
    (2, 2), (9, 8), seed=70, attempts=15, legs=3, atoms={(x, y): MOUSE for x in range(1, 18, 3) for y in range(0, 16, 4)},
    every=((1, Flip(BILLION // 100, Area(0, 0, 18, 16))), (3, Put(Area(8, 7, 2, 2), FUSE))),
    once=((2, Clear(Area(0, 0, 9, 8))), (2, Attempts(0)), (3, Erase(300_000_000, Area(4, 4, 10, 8)))),
)
# Chains of each kind that a report, a number of a leg or a tile can make.
WRITTEN: dict[str, Chain] = {
    "one tile": ONE_TILE,
    "one leg": replace(ONE_TILE, legs=1),
    "four tiles": FOUR_TILES,
    "a tile that is off": replace(FOUR_TILES, off=(1,), atoms={(2, 2): MOUSE, (8, 8): MOUSE, (17, 15): FUSE}),
    "legs from the third on": replace(ONE_TILE, first=3, legs=3),
    "the last legs that there are": replace(ONE_TILE, first=LAST_LEG - 1, legs=2, seed=MASK),
    "seeds that wrap": replace(FOUR_TILES, seed=MASK - 8),
    "no attempts": replace(FOUR_TILES, attempts=0, once=FOUR_TILES.once[:1]),
    "an act over all": Chain(seed=9, attempts=3, legs=12, every=((1, Flip(1, Area(0, 0, 8, 8))), (1, Erase(BILLION - 1, Area(0, 0, 8, 8))),
                             (1, Put(Area(0, 0, 8, 8), MOUSE)))),
    "many tiles": Chain((8, 8), (8, 8), seed=3, attempts=4, legs=2, every=((1, Put(Area(20, 20, 24, 24), MOUSE)),)),
}


def kinds(chain: Chain) -> Iterator[Chain]:
    """A chain with each kind of reports."""
    yield chain
    yield replace(chain, journal="short")
    yield replace(chain, journal="none")
    yield replace(chain, journal="none", period=2)


class Drawer:
    """Draws chains from a seed."""

    def __init__(self, seed: int) -> None:
        self.random = random.Random(seed)

    def among(self, *values: int) -> int:
        """One of these numbers."""
        return self.random.choice(values)

    def area(self, columns: int, rows: int) -> Area:
        """An area of a plane."""
        x, y = self.random.randrange(columns), self.random.randrange(rows)
        if self.random.random() < 0.2:
            return Area(0, 0, columns, rows)
        return Area(x, y, self.random.randint(1, columns - x), self.random.randint(1, rows - y))

    def atom(self) -> Atom:
        """An atom."""
        state = self.random.getrandbits(71) if self.random.random() < 0.3 else self.among(0, 1, 1 << 70)
        return Atom(self.random.choice(NAMES), state)

    def chance(self) -> int:
        """A chance in billionths."""
        return self.among(0, BILLION, BILLION // 2, BILLION // 100, self.random.randrange(BILLION))

    def act(self, columns: int, rows: int, may_be_attempts: bool) -> Act:
        """An act."""
        area = self.area(columns, rows)
        acts: list[Act] = [Clear(area), Put(area, self.atom()), Erase(self.chance(), area), Flip(self.chance(), area)]
        return self.random.choice([*acts, *[Attempts(self.among(0, 1, 7, 20))] * may_be_attempts])

    def atoms(self, chain: Chain) -> dict[tuple[int, int], Atom]:
        """Atoms at sites of a chain whose tiles are on."""
        columns, rows = chain.tiles[0] * chain.size[0], chain.tiles[1] * chain.size[1]
        places = [(self.random.randrange(columns), self.random.randrange(rows)) for _ in range(self.random.randrange(20))]
        return {place: self.atom() for place in places if chain.is_on(*place)}

    def chain(self) -> Chain:
        """A chain."""
        tiles = self.random.choice([(1, 1), (2, 1), (1, 2), (2, 2), (3, 2)])
        size = self.random.randint(8, 13), self.random.randint(8, 13)
        columns, rows = tiles[0] * size[0], tiles[1] * size[1]
        legs = self.random.randint(1, 6)
        first = self.among(1, 1, 2, 6, LAST_LEG + 1 - legs)
        off = tuple(sorted(self.random.sample(range(tiles[0] * tiles[1]), self.among(0, 0, min(1, tiles[0] * tiles[1] - 1)))))
        numbers = sorted(self.among(*range(first, first + legs), 1, LAST_LEG) for _ in range(self.random.randrange(7)))
        journal = self.random.choice(["whole", "whole", "short", "none"])
        chain = Chain(
            tiles, size, off, self.among(0, 1000, MASK, self.random.getrandbits(64)), self.among(0, 1, 5, 12), legs, first, journal,
            self.among(1, 2, 3, 1_000_000) if journal == "none" else 1,
            tuple((self.random.randint(1, 4), self.act(columns, rows, False)) for _ in range(self.random.randrange(4))),
            tuple((number, self.act(columns, rows, True)) for number in numbers),
        )
        return replace(chain, atoms=self.atoms(chain))


def drawn(seed: int) -> Chain:
    """The chain of a seed."""
    return Drawer(seed).chain()
