"""Acts: what is done to the atoms of a chain, or to the length of its legs, before a leg.

  LEG:clear:AREA                          no atoms are left in the area
  LEG:put:Element[:member=value,..]:AREA  each site of the area has an atom with these values, and 0 for all others
  LEG:erase:P:AREA                        each atom of the area vanishes with the probability P
  LEG:flip:P:AREA                         of each atom of the area, with the probability P, one bit of its state is changed
  LEG:attempts:K                          in this leg, and in no other, each tile makes K attempts

In the place of LEG, `every:K` stands for each leg whose number K divides; this can't be said of `attempts`. AREA is a site
`X,Y`, a rectangle `X,Y,WIDTH,HEIGHT`, or several of both with `+` between them. P is 0, 1, or 0. and up to nine digits.

The program does the acts: they are lines of the chain file, which has one for each rectangle, and its page (docs/chains.md)
says what they do and which random numbers they take.
"""
import re
from collections.abc import Iterable, Sequence
from dataclasses import dataclass, field

from ..base.errors import LabError
from ..base.limits import MOST_ATTEMPTS
from ..formats.areas import Area, Rectangle
from ..formats.layout import Layout
from ..formats.values import state_of
from ..formats.world import World

FORM = re.compile(r"(every:)?([1-9]\d{0,8}):(clear|put|erase|flip|attempts):(.+)", re.ASCII)
CHANCE = re.compile(r"0|1|0\.\d{1,9}", re.ASCII)
USAGE = ("it has to be LEG:clear:AREA, LEG:put:Element[:member=value,..]:AREA, LEG:erase:P:AREA, LEG:flip:P:AREA or "
         "LEG:attempts:K, with legs counted from 1, or but for attempts every:K in the place of LEG")
SHOWN = 60  # so many letters of an act stand in a refusal


@dataclass(frozen=True)
class Act:
    """What is done before a leg, or before each leg whose number `leg` divides.

    `text` is as --at has it. `lines` are those of a chain file without the words before them, and `attempts` is how many
    attempts each tile makes, if the act is about that alone.
    """

    text: str
    leg: int
    is_every: bool
    lines: tuple[str, ...]
    attempts: int | None = None

    @staticmethod
    def of(text: str, world: World, layout: Layout) -> "Act":
        """The act that a text says.

        Refuses, with the text and what is wrong, another form, an area outside the plane, an unknown element or member, and
        a value or a number out of its range.
        """
        match = FORM.fullmatch(text)
        if match is None or (match[1] and match[3] == "attempts"):
            raise LabError(f"{shown(text)}: {USAGE}")
        is_every, leg, kind, rest = match[1] is not None, int(match[2]), match[3], match[4]
        try:
            if kind == "attempts":
                attempts = attempts_of(rest, world)
                return Act(text, leg, False, (f"attempts {attempts}",), attempts)
            return Act(text, leg, is_every, lines_of(kind, rest, world, layout))
        except LabError as error:
            raise LabError(f"{shown(text)}: {error}") from error

    @property
    def told(self) -> str:
        """The act without its leg."""
        return self.text.removeprefix("every:").partition(":")[2]


@dataclass
class Acts:
    """The acts of a chain: those before many legs, and those before single ones."""

    every: list[Act] = field(default_factory=list)
    by_leg: dict[int, list[Act]] = field(default_factory=dict)

    @staticmethod
    def of(acts: Iterable[Act]) -> "Acts":
        """Acts in their order."""
        found = Acts()
        for act in acts:
            found.add(act)
        return found

    def add(self, act: Act) -> None:
        """Adds an act behind the others."""
        (self.every if act.is_every else self.by_leg.setdefault(act.leg, [])).append(act)

    def forget(self, upto: int) -> None:
        """Forgets the acts before single legs up to one; the record has them."""
        for leg in [leg for leg in self.by_leg if leg <= upto]:
            del self.by_leg[leg]

    def attempts(self, leg: int) -> int | None:
        """How many attempts each tile makes in a leg, if an act says so."""
        said = [act.attempts for act in self.by_leg.get(leg, ()) if act.attempts is not None]
        return said[-1] if said else None

    def before(self, leg: int) -> list[Act]:
        """What is done to the atoms before a leg, in this order."""
        every = [act for act in self.every if leg % act.leg == 0]
        return every + [act for act in self.by_leg.get(leg, ()) if act.attempts is None]

    def lines(self, first: int, last: int) -> str:
        """The lines of a chain file for the legs from the first to the last."""
        every = [f"every {act.leg} {line}\n" for act in self.every for line in act.lines]
        legs = sorted(leg for leg in self.by_leg if first <= leg <= last) if last > first else [first]
        own = [f"act {leg} {line}\n" for leg in legs for act in self.by_leg.get(leg, ()) for line in act.lines]
        return "".join([*every, *own])


def attempts_of(text: str, world: World) -> int:
    """How many attempts each tile makes."""
    most = MOST_ATTEMPTS // max(world.tiles - len(world.off), 1)
    if not re.fullmatch(r"0|[1-9]\d{0,6}", text, re.ASCII) or int(text) > most:
        raise LabError(f"a tile of this world makes from 0 to {most} attempts")
    return int(text)


def lines_of(kind: str, rest: str, world: World, layout: Layout) -> tuple[str, ...]:
    """The lines of a chain file that an act on atoms stands for, one for each rectangle."""
    if kind == "put":
        parts = rest.split(":")
        if not 2 <= len(parts) <= 3:
            raise LabError(USAGE)
        element, *values, where = parts
        state = state_of(layout, element, values[0] if values else "")
        return tuple(f"put {place(it)} {element} {state:018x}" for it in live_area(where, world).rectangles)
    if kind == "clear":
        return tuple(f"clear {place(it)}" for it in Area.of(rest, world).rectangles)
    chance, _, where = rest.partition(":")
    if not CHANCE.fullmatch(chance):
        raise LabError(f"{chance or 'nothing'} is no probability from 0 to 1 with at most nine digits behind the point, such as 0.25")
    return tuple(f"{kind} {chance} {place(it)}" for it in Area.of(where, world).rectangles)


def live_area(text: str, world: World) -> Area:
    """An area to put atoms on. Refuses one with a site of a tile that is off."""
    area = Area.of(text, world)
    off = {world.tile_at(x, y) for x, y in area.sites()} & set(world.off) if world.off else set()
    if off:
        raise LabError(f"tile {min(off)} is off, so it has no atoms")
    return area


def place(rectangle: Rectangle) -> str:
    """A rectangle as a chain file has it."""
    return f"{rectangle.x} {rectangle.y} {rectangle.width} {rectangle.height}"


def noise(chance: str, world: World) -> str:
    """The act that changes bits all over the plane before each leg, as --at has it."""
    return f"every:1:flip:{chance}:0,0,{world.columns},{world.rows}"


def legs_named(texts: Sequence[str]) -> list[int]:
    """The legs of acts on record that are of a single leg each, and change atoms."""
    return [int(text.partition(":")[0]) for text in texts if not text.startswith("every:") and ":attempts:" not in text]


def shown(text: str) -> str:
    """A text as a refusal has it: in one line, and cut if it is long."""
    line = "".join(letter if letter.isprintable() else "?" for letter in text[:SHOWN])
    return line if len(text) <= SHOWN else f"{line}.."
