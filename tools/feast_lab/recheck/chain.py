"""Chains of legs: their lines, beside those that worlds have too. Refused with 70 to 76."""
from __future__ import annotations

import re
from collections import defaultdict
from typing import Iterator, Optional

from .acts import WHOLE_CHANCE, Act, Area, Leg
from .draws import WORD
from .faults import RefusedLine
from .limits import LAST_LEG, MOST_LEGS, STATE_BITS
from .world import NAME, NUMBER, STATE, Parts, Text, World, in_range, numbers_in, read_text

AREA = b" ".join([NUMBER] * 4)
CHANCE = rb"(0|1|0\.[0-9]{1,9})"
ACTS = {
    b"clear": re.compile(rb"clear " + AREA),
    b"put": re.compile(rb"put " + AREA + b" " + NAME + b"(?: " + STATE + b")?"),
    b"erase": re.compile(rb"erase " + CHANCE + b" " + AREA),
    b"flip": re.compile(rb"flip " + CHANCE + b" " + AREA),
}
ATTEMPTS = re.compile(rb"attempts " + NUMBER)
LAST = ["every", "act", "atom"]


class Chain(Text):
    """A chain. Legs have a stride of seeds: one for each tile, one for the order and one for acts."""

    forms = {
        **Text.forms,
        "legs": re.compile(rb"legs " + NUMBER), "first": re.compile(rb"first " + NUMBER),
        "journal": re.compile(rb"journal (whole|short|none)"), "print": re.compile(rb"print " + NUMBER),
        "every": re.compile(rb"every " + NUMBER + rb" (.*)"), "act": re.compile(rb"act " + NUMBER + rb" (.*)"),
    }
    after = {
        "header": ["tiles"], "tiles": ["size"], "size": ["off", "seed"], "off": ["off", "seed"], "seed": ["attempts"],
        "attempts": ["legs"], "legs": ["first", "journal", *LAST], "first": ["journal", *LAST], "journal": ["print", *LAST],
        "print": LAST, "every": LAST, "act": ["act", "atom"], "atom": ["atom"],
    }
    needed = ("header", "tiles", "size", "off", "seed", "attempts")

    def __init__(self) -> None:
        super().__init__()
        self.first = self.due = 1
        self.every: list[tuple[int, Act]] = []
        self.once: dict[int, list[Act]] = defaultdict(list)
        self.counts: dict[int, int] = {}

    def legs(self) -> Iterator[Leg]:
        """The legs, one after another."""
        return map(self.leg, range(self.first, self.last + 1))

    def leg(self, number: int) -> Leg:
        """The leg of a number."""
        tiles = self.plane.tiles
        seed = self.seed + (number - 1) * (tiles + 2) & WORD
        plan = self.drawn(seed, self.counts.get(number, self.count))
        acts = [act for every, act in self.every if number % every == 0] + self.once.get(number, [])
        return Leg(number, plan, seed + tiles & WORD, (), acts, seed + tiles + 1 & WORD)

    def take_legs(self, parts: Parts, line: int) -> None:
        """`legs N`"""
        self.last = numbers_in(parts)[0]
        in_range(1 <= self.last <= MOST_LEGS, line)

    def take_first(self, parts: Parts, line: int) -> None:
        """`first F`"""
        self.first = numbers_in(parts)[0]
        self.last += self.first - 1
        in_range(1 <= self.first and self.last <= LAST_LEG, line)

    def take_journal(self, parts: Parts, line: int) -> None:
        """`journal MODE`"""
        self.journal = (parts[0] or b"").decode()

    def take_print(self, parts: Parts, line: int) -> None:
        """`print P`, behind `journal none` alone"""
        if self.journal != "none":
            raise RefusedLine(71, line)
        self.print = numbers_in(parts)[0]
        in_range(1 <= self.print <= MOST_LEGS, line)

    def take_every(self, parts: Parts, line: int) -> None:
        """`every K ACT`"""
        act, due = act_of(parts[1] or b"", line), int(parts[0] or b"")
        in_range(1 <= due <= LAST_LEG and self.fits(act), line)
        self.every.append((due, act))
        self.acts.append(act)

    def take_act(self, parts: Parts, line: int) -> None:
        """`act K ACT`, or `act K attempts N`"""
        due, attempts = int(parts[0] or b""), ATTEMPTS.fullmatch(parts[1] or b"")
        act = None if attempts else act_of(parts[1] or b"", line)
        in_range(self.due <= due <= LAST_LEG and (act is None or self.fits(act)), line)
        self.due = due
        if act is not None:
            self.once[due].append(act)
            self.acts.append(act)
        elif attempts is not None:
            self.counts[due] = self.counted(int(attempts[1]), line)

    def fits(self, act: Act) -> bool:
        """Whether the numbers of an act are in their ranges."""
        grid, area = self.plane.grid, act.area
        is_inside = area.x + area.width <= grid.width and area.y + area.height <= grid.height
        return is_inside and area.width >= 1 and area.height >= 1 and act.state < 1 << STATE_BITS


def act_of(text: bytes, line: int) -> Act:
    """The act that a text says."""
    kind = text.split(b" ", 1)[0]
    found = ACTS[kind].fullmatch(text) if kind in ACTS else None
    if found is None:
        raise RefusedLine(71, line)
    parts = list(found.groups())
    chance = parts.pop(0) if kind in (b"erase", b"flip") else b"0"
    area = Area(*numbers_in(parts[:4]))
    name, state = parts[4:] or (b"", None)
    return Act(kind.decode(), area, line, parts_of_whole(chance), name.decode(), int(state or b"0", 16))


def parts_of_whole(chance: bytes) -> int:
    """How many parts of 10^9 a chance is."""
    whole, _, digits = chance.partition(b".")
    return int(whole) * WHOLE_CHANCE + int(digits.ljust(9, b"0"))


def headed(line: bytes) -> Optional[Text]:
    """What takes the lines behind a header."""
    if line == b"chain 1":
        return Chain()
    return World(line == b"feast 2") if line in (b"feast 1", b"feast 2") else None


def read_world(data: bytes) -> Text:
    """The world or the chain of a text, in which no name is looked up yet."""
    return read_text(data, headed)
