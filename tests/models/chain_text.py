"""Chain files, read by their rules in docs/chains.md, and how they are refused."""
import re
from collections.abc import Collection, Iterator
from dataclasses import dataclass, field
from typing import NamedTuple, NoReturn

from chain import BILLION, Act, Area, Attempts, Chain, Clear, Erase, Flip, Put
from draws import MASK
from plane import STATE_BITS, Atom
from report_lines import NUMBER, STATE, TYPE_NAME

CHANCE = re.compile(rb"(0|1|0\.[0-9]{1,9})\Z")
# The models are written apart from the rest, so they have these limits once more.
MOST_ATTEMPTS = MOST_LEGS = 1_000_000
LAST_LEG = 4_294_967_295
LONGEST = 268_435_456


class Fault(NamedTuple):
    """Why a text is refused: the code, the line, and the number in the text of the refusal, if it has one."""

    code: int
    line: int
    number: int = 0


class Refused(Exception):
    """A text is refused."""

    def __init__(self, fault: Fault) -> None:
        super().__init__(fault)
        self.fault = fault


def refuse(code: int, line: int, number: int = 0) -> NoReturn:
    """Refuses a text."""
    raise Refused(Fault(code, line, number))


class Line(NamedTuple):
    """A line of a chain: its kind, the numbers in it, and what else it has."""

    kind: str
    numbers: tuple[int, ...] = ()
    word: str = ""
    name: str = ""
    state: int = 0
    chance: int = 0


def numbers_of(fields: list[bytes], count: int) -> tuple[int, ...] | None:
    """So many numbers, or None."""
    return tuple(map(int, fields)) if len(fields) == count and all(NUMBER.match(it) for it in fields) else None


def with_numbers(line: Line, fields: list[bytes], count: int) -> Line | None:
    """A line with so many numbers, or None."""
    found = numbers_of(fields, count)
    return None if found is None else line._replace(numbers=found)


def named(line: Line, fields: list[bytes], count: int) -> Line | None:
    """A line with so many numbers, a name and perhaps a state, or None."""
    if len(fields) == count + 2 and STATE.match(fields[-1]):
        line, fields = line._replace(state=int(fields[-1], 16)), fields[:-1]
    if len(fields) != count + 1 or not TYPE_NAME.match(fields[-1]):
        return None
    return with_numbers(line._replace(name=fields[-1].decode()), fields[:-1], count)


def by_chance(line: Line, fields: list[bytes]) -> Line | None:
    """A line with a chance and an area, or None."""
    if not fields or not CHANCE.match(fields[0]):
        return None
    whole, _, part = fields[0].decode().partition(".")
    chance = int(whole) * BILLION + int(part.ljust(9, "0") if part else 0)
    return with_numbers(line._replace(chance=chance), fields[1:], 4)


def act_line(kind: str, fields: list[bytes]) -> Line | None:
    """A line with an act: the number before the act is behind those of the act, as the last one."""
    if len(fields) < 2:
        return None
    before, word, rest = fields[0], fields[1], fields[2:]
    line = Line(kind, word=word.decode("latin-1"))
    match word:
        case b"clear":
            found = with_numbers(line, rest, 4)
        case b"put":
            found = named(line, rest, 4)
        case b"erase" | b"flip":
            found = by_chance(line, rest)
        case b"attempts" if kind == "act":
            found = with_numbers(line, rest, 1)
        case _:
            found = None
    return found._replace(numbers=(*found.numbers, int(before))) if found and NUMBER.match(before) else None


# How many numbers a line has that has nothing else.
PLAIN = {b"tiles": 2, b"size": 2, b"off": 1, b"seed": 1, b"attempts": 1, b"legs": 1, b"first": 1, b"print": 1}


def line_of(text: bytes) -> Line | None:
    """What a line says, or None if it has none of the forms."""
    word, *fields = text.split(b" ")
    if word in PLAIN:
        return with_numbers(Line(word.decode()), fields, PLAIN[word])
    if word == b"journal" and fields in ([b"whole"], [b"short"], [b"none"]):
        return Line("journal", word=fields[0].decode())
    if word == b"atom":
        return named(Line("atom"), fields, 2)
    return act_line(word.decode(), fields) if word in (b"every", b"act") else None


# Behind which lines a line may come.
BEHIND: dict[str, Collection[str]] = {
    "tiles": ["header"], "size": ["tiles"], "off": ["size", "off"], "seed": ["size", "off"], "attempts": ["seed"],
    "legs": ["attempts"], "first": ["legs"], "journal": ["legs", "first"], "print": ["none"],
    "every": ["legs", "first", "journal", "none", "print", "every"],
    "act": ["legs", "first", "journal", "none", "print", "every", "act"],
    "atom": ["legs", "first", "journal", "none", "print", "every", "act", "atom"],
}


@dataclass
class Draft:
    """What the lines say so far: the kind of the last one (`none` for `journal none`), numbers by the kinds of their
    lines, the tiles that are off, the acts, and the atoms, each with its line."""

    last: str = "header"
    said: dict[str, tuple[int, ...]] = field(default_factory=dict)
    journal: str = "whole"
    off: list[int] = field(default_factory=list)
    every: list[tuple[int, Line]] = field(default_factory=list)
    once: list[tuple[int, Line]] = field(default_factory=list)
    atoms: list[tuple[int, Line]] = field(default_factory=list)

    def number(self, kind: str, default: int = 0) -> int:
        """The number of a line."""
        return self.said.get(kind, (default,))[0]

    @property
    def tiles(self) -> int:
        """How many tiles there are."""
        return self.said["tiles"][0] * self.said["tiles"][1]

    def is_in_plane(self, x: int, y: int) -> bool:
        """Whether there is such a site, whatever its tile."""
        (across, down), (width, height) = self.said["tiles"], self.said["size"]
        return x < across * width and y < down * height

    def is_site(self, x: int, y: int) -> bool:
        """Whether there is such a site, and its tile is on."""
        width, height = self.said["size"]
        return self.is_in_plane(x, y) and y // height * self.said["tiles"][0] + x // width not in self.off

    def is_act_in_range(self, line: Line) -> bool:
        """Whether the numbers of an act are in their ranges."""
        if line.word == "attempts":
            return True
        x, y, width, height = line.numbers[:4]
        is_area = min(width, height) >= 1 and self.is_in_plane(x + width - 1, y + height - 1)
        return is_area and line.state < 1 << STATE_BITS

    def is_in_range(self, line: Line) -> bool:
        """Whether the numbers of a line are in their ranges."""
        first, last = (line.numbers or (0,))[0], (line.numbers or (0,))[-1]
        match line.kind:
            case "tiles" | "size":
                low, high = (1, 8) if line.kind == "tiles" else (8, 64)
                return all(low <= number <= high for number in line.numbers)
            case "off":
                rising = not self.off or first > self.off[-1]
                return rising and first < self.tiles and len(self.off) + 1 < self.tiles
            case "seed":
                return first <= MASK
            case "legs" | "print":
                return 1 <= first <= MOST_LEGS
            case "first":
                return 1 <= first <= LAST_LEG + 1 - self.number("legs")
            case "every" | "act":
                least = self.once[-1][1].numbers[-1] if line.kind == "act" and self.once else 1
                return least <= last <= LAST_LEG and self.is_act_in_range(line)
            case "atom":
                return self.is_site(*line.numbers) and line.state < 1 << STATE_BITS
            case _:
                return True

    def is_too_many(self, line: Line) -> bool:
        """Whether a line asks for too many attempts."""
        asks = line.kind == "attempts" or line.word == "attempts"
        return asks and line.numbers[0] * (self.tiles - len(self.off)) > MOST_ATTEMPTS

    def take(self, number: int, text: bytes) -> None:
        """Takes a line."""
        line = line_of(text)
        if line is None or self.last not in BEHIND[line.kind]:
            refuse(71, number)
        if not self.is_in_range(line):
            refuse(72, number)
        if self.is_too_many(line):
            refuse(75, number)
        match line.kind:
            case "off":
                self.off.append(line.numbers[0])
            case "every" | "act":
                (self.every if line.kind == "every" else self.once).append((number, line))
            case "atom":
                self.atoms.append((number, line))
            case "journal":
                self.journal = line.word
            case _:
                self.said[line.kind] = line.numbers
        self.last = "none" if line.word == "none" else line.kind

    def chain(self) -> Chain:
        """The chain."""
        (across, down), (width, height) = self.said["tiles"], self.said["size"]
        atoms = {(line.numbers[0], line.numbers[1]): Atom(line.name, line.state) for _, line in self.atoms}
        return Chain((across, down), (width, height), tuple(self.off), self.number("seed"), self.number("attempts"),
                     self.number("legs"), self.number("first", 1), self.journal, self.number("print", 1),
                     tuple((line.numbers[-1], act_of(line)) for _, line in self.every),
                     tuple((line.numbers[-1], act_of(line)) for _, line in self.once), atoms)


def act_of(line: Line) -> Act:
    """The act of a line."""
    if line.word == "attempts":
        return Attempts(line.numbers[0])
    area = Area(*line.numbers[:4])
    match line.word:
        case "clear":
            return Clear(area)
        case "put":
            return Put(area, Atom(line.name, line.state))
        case "erase":
            return Erase(line.chance, area)
        case _:
            return Flip(line.chance, area)


def lines_of(text: bytes) -> Iterator[tuple[int, bytes]]:
    """The lines of a text that are not skipped, with their numbers; at the end the number of the last line plus 1."""
    parts = text.split(b"\n")
    last = parts.pop()
    lines = [part.removesuffix(b"\r") for part in parts] + [last] * bool(last)
    yield from ((number, line) for number, line in enumerate(lines, 1) if line and not line.startswith(b"#"))
    yield len(lines) + 1, b""


def is_chain(text: bytes) -> bool:
    """Whether a text is to be read as a chain."""
    return next(lines_of(text))[1] == b"chain 1"


def read_chain(text: bytes) -> Draft:
    """What a text says that is to be read as a chain; Refused if it isn't one."""
    draft = Draft()
    lines = lines_of(text)
    next(lines)
    number = 0
    for number, line in lines:
        if line:
            draft.take(number, line)
    if draft.last in ("header", "tiles", "size", "off", "seed", "attempts"):
        refuse(76, number)
    return draft


def name_chain(draft: Draft, names: Collection[str]) -> Chain:
    """The chain whose elements have these names; Refused if a name is another one, or a site is taken."""
    for number, line in [*draft.every, *draft.once]:
        if line.word == "put" and line.name not in names:
            refuse(73, number)
    taken = set()
    for number, line in draft.atoms:
        if line.name not in names:
            refuse(73, number)
        if line.numbers in taken:
            refuse(74, number)
        taken.add(line.numbers)
    return draft.chain()
