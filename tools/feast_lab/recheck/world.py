"""World files (docs/formats.md, "World"), and the lines that chains have too. Refused with 70 to 76."""
from __future__ import annotations

import re
from dataclasses import dataclass
from functools import cached_property
from typing import Callable, Iterator, Optional, Sequence, Union

from .acts import Act, Leg
from .draws import Attempt, drawn_attempts
from .faults import RefusedLine
from .limits import LEAST_SIDE, MOST_ACROSS, MOST_ATTEMPTS, MOST_SIDE, STATE_BITS
from .plane import Plane, Shape
from .windows import Grid, atom

NUMBER = rb"(0|[1-9][0-9]{0,19})"
NAME = rb"([A-Z][A-Za-z0-9_]{0,254})"
STATE = rb"([0-9a-f]{18})"
TILES = re.compile(NUMBER + rb"(?: " + NUMBER + rb")*")
END_OF_SEEDS = 2**64


@dataclass
class Placed:
    """An atom of a world, and its line."""

    x: int
    y: int
    name: str
    state: int
    line: int


def lines_of(data: bytes) -> list[bytes]:
    """The lines of a text, each without its LF and one CR before that."""
    lines = data.split(b"\n")
    last = [lines.pop()]
    return [line.removesuffix(b"\r") for line in lines] + (last if last[0] else [])


def read_text(data: bytes, headed: Callable[[bytes], Optional["Text"]]) -> "Text":
    """What a text says, whose kind is that of its header."""
    text: Optional[Text] = None
    lines = lines_of(data)
    for number, line in enumerate(lines, 1):
        if not line or line.startswith(b"#"):
            continue
        if text is not None:
            text.take(line, number)
            continue
        text = headed(line)
        if text is None:
            raise RefusedLine(70, number)
    if text is None:
        raise RefusedLine(70, len(lines) + 1)
    if text.before in text.needed:
        raise RefusedLine(76, len(lines) + 1)
    text.end()
    return text


Parts = Sequence[Optional[bytes]]


def numbers_in(parts: Parts) -> list[int]:
    """Decimal numbers."""
    return [int(part or b"") for part in parts]


def in_range(is_so: bool, line: int) -> None:
    """Refuses a line with a number outside of its range."""
    if not is_so:
        raise RefusedLine(72, line)


class Text:
    """What the lines of a world or a chain have said so far, and what they say in the end. `forms` are those of lines by
    their words, `after` says which lines may come behind which, and behind those of `needed` some line has to. `acts` are
    those of all legs; `journal` is how reports tell of events, and `print` how many legs share one where they only count."""

    forms = {
        "tiles": re.compile(rb"tiles " + NUMBER + b" " + NUMBER),
        "size": re.compile(rb"size " + NUMBER + b" " + NUMBER),
        "off": re.compile(rb"off " + NUMBER),
        "seed": re.compile(rb"seed " + NUMBER),
        "attempts": re.compile(rb"attempts " + NUMBER),
        "atom": re.compile(rb"atom " + NUMBER + b" " + NUMBER + b" " + NAME + rb"(?: " + STATE + b")?"),
    }
    after: dict[str, list[str]] = {}
    needed: Sequence[str] = ()
    journal = "whole"
    print = last = 1

    def __init__(self) -> None:
        self.before = "header"
        self.across = self.down = self.seed = self.count = 0
        self.shape: Optional[Shape] = None
        self.off: list[int] = []
        self.atoms: list[Placed] = []
        self.acts: list[Act] = []

    @cached_property
    def plane(self) -> Plane:
        """The plane, which is asked for once its last `off` line is read."""
        assert self.shape is not None
        return Plane(self.shape, frozenset(self.off))

    def take(self, line: bytes, number: int) -> None:
        """Takes a line behind the header."""
        word = line.split(b" ", 1)[0].decode("latin-1")
        found = self.forms[word].fullmatch(line) if word in self.forms else None
        if found is None or word not in self.after[self.before]:
            raise RefusedLine(71, number)
        getattr(self, f"take_{word}")(found.groups(), number)
        self.before = word

    def end(self) -> None:
        """What is to be done once all lines are read."""

    def legs(self) -> Iterator[Leg]:
        """The legs, one after another."""
        raise NotImplementedError

    def drawn(self, seed: int, count: int) -> list[list[Attempt]]:
        """What each tile draws."""
        sites = self.plane.shape.width * self.plane.shape.height
        return [drawn_attempts(seed, tile, count, sites) if on else [] for tile, on in enumerate(self.plane.on)]

    def counted(self, count: int, line: int) -> int:
        """A number of attempts of each tile."""
        if count * sum(self.plane.on) > MOST_ATTEMPTS:
            raise RefusedLine(75, line)
        return count

    def take_tiles(self, parts: Parts, line: int) -> None:
        """`tiles TX TY`"""
        self.across, self.down = numbers_in(parts)
        in_range(1 <= self.across <= MOST_ACROSS and 1 <= self.down <= MOST_ACROSS, line)

    def take_size(self, parts: Parts, line: int) -> None:
        """`size W H`"""
        width, height = numbers_in(parts)
        in_range(LEAST_SIDE <= width <= MOST_SIDE and LEAST_SIDE <= height <= MOST_SIDE, line)
        self.shape = Shape(self.across, self.down, width, height)

    def take_off(self, parts: Parts, line: int) -> None:
        """`off T`"""
        tile = numbers_in(parts)[0]
        tiles = self.across * self.down
        in_range(tile < tiles and tile > max(self.off, default=-1) and len(self.off) + 1 < tiles, line)
        self.off.append(tile)

    def take_seed(self, parts: Parts, line: int) -> None:
        """`seed N`"""
        self.seed = numbers_in(parts)[0]
        in_range(self.seed < END_OF_SEEDS, line)

    def take_attempts(self, parts: Parts, line: int) -> None:
        """`attempts K`"""
        self.count = self.counted(numbers_in(parts)[0], line)

    def take_atom(self, parts: Parts, line: int) -> None:
        """`atom X Y NAME` with a state or without"""
        x, y = numbers_in(parts[:2])
        state = int(parts[3] or b"0", 16)
        in_range(self.plane.is_live(x, y) and state < 1 << STATE_BITS, line)
        self.atoms.append(Placed(x, y, (parts[2] or b"").decode(), state, line))


class World(Text):
    """A world, which is one leg."""

    forms = {
        **Text.forms,
        "try": re.compile(rb"try " + b" ".join([NUMBER] * 3) + rb" ([0-9a-f]{16})"),
        "order": re.compile(rb"order (?:seed " + NUMBER + rb"|([0-9 ]+))"),
    }
    after = {
        "header": ["tiles"], "tiles": ["size"], "size": ["seed", "try", "atom", "order"], "off": ["off", "seed", "try", "atom", "order"],
        "seed": ["attempts"], "attempts": ["atom", "order"], "try": ["try", "atom", "order"], "atom": ["atom", "order"],
        "order": ["order"],
    }
    needed = ("header", "tiles", "seed")

    def __init__(self, may_be_off: bool) -> None:
        super().__init__()
        if may_be_off:
            self.after = {**self.after, "size": self.after["off"]}
        self.tries: list[tuple[int, int, int]] = []
        self.order_seed = -1
        self.order: list[int] = []

    def take_try(self, parts: Parts, line: int) -> None:
        """`try T X Y SEED`"""
        tile, x, y = numbers_in(parts[:3])
        plane = self.plane
        in_range(plane.is_live(x, y) and plane.owner(x, y) == tile, line)
        if len(self.tries) == MOST_ATTEMPTS:
            raise RefusedLine(75, line)
        width, height = plane.shape.width, plane.shape.height
        self.tries.append((tile, y % height * width + x % width, int(parts[3] or b"", 16)))

    def take_order(self, parts: Parts, line: int) -> None:
        """`order seed N`, alone, or `order T T ..`"""
        seed, tiles = parts
        if self.before == "order" and (seed is not None or self.order_seed >= 0):
            raise RefusedLine(71, line)
        if seed is not None:
            self.order_seed = int(seed)
            return in_range(self.order_seed < END_OF_SEEDS, line)
        if not TILES.fullmatch(tiles or b""):
            raise RefusedLine(71, line)
        named = [int(tile) for tile in (tiles or b"").split(b" ")]
        on = self.plane.on
        in_range(all(tile < len(on) and on[tile] for tile in named), line)
        self.order += named

    def end(self) -> None:
        """Draws the attempts, or sorts those of `try` lines by tiles."""
        self.plan = self.drawn(self.seed, self.count)
        for tile, position, seed in self.tries:
            self.plan[tile].append((position, seed))

    def legs(self) -> Iterator[Leg]:
        """The one leg."""
        yield Leg(0, self.plan, self.order_seed, self.order)


def start_of(world: Text, numbers: dict[str, int]) -> Grid:
    """The grid with which a run begins, by the numbers of the elements' names; the atoms of acts are noted too. Refused with
    73 and 74."""
    grid = world.plane.grid.copy()
    named: list[Union[Act, Placed]] = [*(act for act in world.acts if act.kind == "put"), *world.atoms]
    for it in named:
        if it.name not in numbers:
            raise RefusedLine(73, it.line)
        made = atom(numbers[it.name], it.state)
        if isinstance(it, Act):
            it.atom = made
            continue
        place = grid.place(it.x, it.y)
        if grid.atoms[place]:
            raise RefusedLine(74, it.line)
        grid.atoms[place] = made
    return grid
