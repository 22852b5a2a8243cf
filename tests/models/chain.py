"""Chains: what their legs are, and what the acts between them do."""
from collections.abc import Callable, Iterator
from dataclasses import dataclass, field, replace
from typing import Protocol

from draws import MASK, Xoshiro256
from plane import EMPTY, STATE_BITS, Atom, Plane

# A chance is a number of these parts.
BILLION = 1_000_000_000

# Whether the tile of a site is on.
IsOn = Callable[[int, int], bool]


@dataclass(frozen=True)
class Area:
    """A rectangle of sites."""

    x: int
    y: int
    width: int
    height: int

    def sites(self) -> Iterator[tuple[int, int]]:
        """Its sites, row by row."""
        for y in range(self.y, self.y + self.height):
            for x in range(self.x, self.x + self.width):
                yield x, y

    def text(self) -> str:
        """The area as the fields of a line."""
        return f"{self.x} {self.y} {self.width} {self.height}"


class Act(Protocol):
    """What changes a plane between two legs."""

    def do(self, plane: Plane, words: Xoshiro256, is_on: IsOn) -> None:
        """Changes the plane, and takes its words."""

    def text(self) -> str:
        """The act as the fields of a line."""


@dataclass(frozen=True)
class Clear:
    """Each site of an area is emptied."""

    area: Area

    def do(self, plane: Plane, words: Xoshiro256, is_on: IsOn) -> None:
        """Empties them."""
        for x, y in self.area.sites():
            plane.put(x, y, EMPTY)

    def text(self) -> str:
        """The act as the fields of a line."""
        return f"clear {self.area.text()}"


@dataclass(frozen=True)
class Put:
    """Each site of an area has this atom, but those of tiles that are off."""

    area: Area
    atom: Atom

    def do(self, plane: Plane, words: Xoshiro256, is_on: IsOn) -> None:
        """Puts them."""
        for x, y in self.area.sites():
            if is_on(x, y):
                plane.put(x, y, self.atom)

    def text(self) -> str:
        """The act as the fields of a line."""
        return f"put {self.area.text()} {self.atom.kind} {self.atom.state:018x}"


def chance_text(chance: int) -> str:
    """A chance as a field of a line."""
    return str(chance // BILLION) if chance % BILLION == 0 else f"0.{chance:09}"


@dataclass(frozen=True)
class Erase:
    """Each site of an area is emptied with a chance of so many billionths."""

    chance: int
    area: Area

    def do(self, plane: Plane, words: Xoshiro256, is_on: IsOn) -> None:
        """Takes a word for each site."""
        for x, y in self.area.sites():
            if words.word() % BILLION < self.chance:
                plane.put(x, y, EMPTY)

    def text(self) -> str:
        """The act as the fields of a line."""
        return f"erase {chance_text(self.chance)} {self.area.text()}"


@dataclass(frozen=True)
class Flip:
    """One bit of each atom of an area is changed with a chance of so many billionths."""

    chance: int
    area: Area

    def do(self, plane: Plane, words: Xoshiro256, is_on: IsOn) -> None:
        """Takes two words for each site."""
        for x, y in self.area.sites():
            hit, bit = words.word() % BILLION < self.chance, words.word() % STATE_BITS
            atom = plane.at(x, y)
            if hit and atom != EMPTY:
                plane.put(x, y, Atom(atom.kind, atom.state ^ 1 << (STATE_BITS - 1 - bit)))

    def text(self) -> str:
        """The act as the fields of a line."""
        return f"flip {chance_text(self.chance)} {self.area.text()}"


@dataclass(frozen=True)
class Attempts:
    """The leg has so many attempts of each tile."""

    count: int

    def do(self, plane: Plane, words: Xoshiro256, is_on: IsOn) -> None:
        """The plane stays as it is."""

    def text(self) -> str:
        """The act as the fields of a line."""
        return f"attempts {self.count}"


@dataclass(frozen=True)
class Chain:
    """A chain; `every` has periods and acts, `once` legs and acts, each in the order of the lines."""

    tiles: tuple[int, int] = (1, 1)
    size: tuple[int, int] = (8, 8)
    off: tuple[int, ...] = ()
    seed: int = 0
    attempts: int = 0
    legs: int = 1
    first: int = 1
    journal: str = "whole"
    period: int = 1
    every: tuple[tuple[int, Act], ...] = ()
    once: tuple[tuple[int, Act], ...] = ()
    atoms: dict[tuple[int, int], Atom] = field(default_factory=dict)

    @property
    def count(self) -> int:
        """How many tiles there are, those that are off too."""
        return self.tiles[0] * self.tiles[1]

    @property
    def numbers(self) -> range:
        """The numbers of the legs."""
        return range(self.first, self.first + self.legs)

    def is_on(self, x: int, y: int) -> bool:
        """Whether the tile of a site is on."""
        return y // self.size[1] * self.tiles[0] + x // self.size[0] not in self.off

    def plane(self) -> Plane:
        """The plane before the first leg and its acts."""
        width, height = self.tiles[0] * self.size[0], self.tiles[1] * self.size[1]
        places = ((x, y) for y in range(height) for x in range(width))
        return Plane(width, height, [self.atoms.get(place, EMPTY) for place in places])

    def leg_seed(self, leg: int) -> int:
        """The seed of a leg: those of its tiles follow from it on, then that of its order, and that of its acts."""
        return self.seed + (leg - 1) * (self.count + 2) & MASK

    def acts_before(self, leg: int) -> list[Act]:
        """The acts before a leg, in the order in which they are done."""
        return [act for period, act in self.every if leg % period == 0] + [act for number, act in self.once if number == leg]

    def attempts_of(self, leg: int) -> int:
        """How many attempts each tile that is on has in a leg."""
        asked = [act.count for number, act in self.once if number == leg and isinstance(act, Attempts)]
        return asked[-1] if asked else self.attempts

    def act(self, leg: int, plane: Plane) -> None:
        """Does the acts before a leg."""
        words = Xoshiro256(self.leg_seed(leg) + self.count + 1)
        for act in self.acts_before(leg):
            act.do(plane, words, self.is_on)

    def leg_world(self, leg: int, plane: Plane) -> str:
        """A leg as a world of its own that begins with a plane."""
        seed = self.leg_seed(leg)
        lines = [f"feast {2 if self.off else 1}", f"tiles {self.tiles[0]} {self.tiles[1]}", f"size {self.size[0]} {self.size[1]}"]
        lines += [f"off {tile}" for tile in self.off]
        lines += [f"seed {seed}", f"attempts {self.attempts_of(leg)}"]
        lines += [f"atom {x} {y} {atom.kind} {atom.state:018x}" for x, y, atom in plane.sites()]
        lines.append(f"order seed {seed + self.count & MASK}")
        return "".join(f"{line}\n" for line in lines)

    def is_told(self, leg: int) -> bool:
        """Whether a leg has a report."""
        return self.journal != "none" or leg % self.period == 0 or leg == self.numbers[-1]

    def text(self) -> str:
        """The chain as a file."""
        lines = ["chain 1", f"tiles {self.tiles[0]} {self.tiles[1]}", f"size {self.size[0]} {self.size[1]}"]
        lines += [f"off {tile}" for tile in self.off]
        lines += [f"seed {self.seed}", f"attempts {self.attempts}", f"legs {self.legs}"]
        lines += [f"first {self.first}"] * (self.first != 1) + [f"journal {self.journal}"] * (self.journal != "whole")
        lines += [f"print {self.period}"] * (self.period != 1)
        lines += [f"every {period} {act.text()}" for period, act in self.every]
        lines += [f"act {leg} {act.text()}" for leg, act in self.once]
        lines += [f"atom {x} {y} {atom.kind} {atom.state:018x}" for (x, y), atom in self.atoms.items()]
        return "".join(f"{line}\n" for line in lines)

    def front(self, leg: int) -> "Chain":
        """The chain up to a leg."""
        return replace(self, legs=leg - self.first + 1)

    def back(self, leg: int, plane: Plane) -> "Chain":
        """The chain behind a leg that left a plane."""
        atoms = {(x, y): atom for x, y, atom in plane.sites()}
        return replace(self, first=leg + 1, legs=self.first + self.legs - 1 - leg, atoms=atoms)
