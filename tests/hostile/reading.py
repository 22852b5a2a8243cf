"""What worlds say, read once more by their rules in docs/formats.md, apart from the program, and how worlds and
reports are refused.

`world_fault` gives the refusal of a text, or None; `report_fault` of reading_reports.py is the same for reports. They
go line by line, as the program does, and share nothing else with it.
"""
from __future__ import annotations

from dataclasses import dataclass, field
from typing import Collection, Iterator, NamedTuple, NoReturn, Optional

from report_lines import NUMBER, SEED, STATE, TYPE_NAME

MASK = (1 << 64) - 1
# This reader is apart from the lab too, so it has the limits once more.
MOST_ATTEMPTS = 1_000_000

TEXTS = {
    70: "bad header", 71: "bad line", 72: "number out of range", 73: "unknown element", 74: "site is taken",
    75: "too many attempts", 76: "missing line", 80: "bad line", 81: "out of order after line {}",
    82: "not a site of the tile", 83: "not an attempt of the tile",
}


class Fault(NamedTuple):
    """The refusal of a text: its code, its line, and the previous line where it tells that too."""

    code: int
    line: int
    previous: int = 0


def refusal(name: str, fault: Fault) -> bytes:
    """The line that tells a fault of a file."""
    return f"{name}:{fault.line}:1: E{fault.code} {TEXTS[fault.code].format(fault.previous)}\n".encode()


class Stop(Exception):
    """A text is refused."""

    def __init__(self, fault: Fault) -> None:
        super().__init__(fault)
        self.fault = fault


def stop(code: int, line: int, previous: int = 0) -> NoReturn:
    """Refuses a text."""
    raise Stop(Fault(code, line, previous))


def lines_of(text: bytes) -> list[bytes]:
    """The lines of a text whose last may lack its LF, each without one CR before its LF."""
    parts = text.split(b"\n")
    last = parts.pop()
    found = [part[:-1] if part.endswith(b"\r") else part for part in parts]
    if last:
        found.append(last)
    return found


def numbers(fields: list[bytes]) -> Optional[list[int]]:
    """The numbers that fields are, or None."""
    if all(NUMBER.match(field) for field in fields):
        return [int(field) for field in fields]
    return None


@dataclass(frozen=True)
class Line:
    """A line of a world: its kind, its numbers (a seed or a state is the last of them), and its name."""

    kind: str
    numbers: tuple[int, ...]
    name: bytes = b""


def line_of(kind: str, fields: list[bytes], *last: int, name: bytes = b"") -> Optional[Line]:
    """The line of a kind with the numbers that fields are and a last one, or None."""
    found = numbers(fields)
    return None if found is None else Line(kind, (*found, *last), name)


def read_line(text: bytes) -> Optional[Line]:
    """What a line says, or None where it has no form."""
    word, *fields = text.split(b" ")
    if word == b"feast" and fields in ([b"1"], [b"2"]):
        return line_of("feast", fields)
    if word in (b"tiles", b"size") and len(fields) == 2:
        return line_of(word.decode(), fields)
    if word in (b"off", b"seed", b"attempts") and len(fields) == 1:
        return line_of(word.decode(), fields)
    if word == b"try" and len(fields) == 4 and SEED.match(fields[3]):
        return line_of("try", fields[:3], int(fields[3], 16))
    if word == b"atom" and len(fields) == 3 and TYPE_NAME.match(fields[2]):
        return line_of("atom", fields[:2], 0, name=fields[2])
    if word == b"atom" and len(fields) == 4 and TYPE_NAME.match(fields[2]) and STATE.match(fields[3]):
        return line_of("atom", fields[:2], int(fields[3], 16), name=fields[2])
    if word == b"order" and len(fields) == 2 and fields[0] == b"seed":
        return line_of("order seed", fields[1:])
    if word == b"order" and fields:
        return line_of("order", fields)
    return None


# Which kinds of lines may stand behind one.
BEHIND: dict[str, set[str]] = {
    "feast": {"tiles"},
    "tiles": {"size"},
    "size": {"off", "seed", "try", "atom", "order", "order seed"},
    "off": {"off", "seed", "try", "atom", "order", "order seed"},
    "seed": {"attempts"},
    "attempts": {"atom", "order", "order seed"},
    "try": {"try", "atom", "order", "order seed"},
    "atom": {"atom", "order", "order seed"},
    "order": {"order"},
    "order seed": set(),
}


class Attempt(NamedTuple):
    """An attempt of a tile: its site and its seed."""

    x: int
    y: int
    seed: int


class Atom(NamedTuple):
    """An atom of a world: its line, its site and the name of its element."""

    line: int
    x: int
    y: int
    name: bytes


@dataclass
class World:
    """What the lines of a world say so far; the kind is that of the last one, and attempts stand beside their tiles."""

    kind: Optional[str] = None
    second: bool = False
    tiles: tuple[int, int] = (1, 1)
    size: tuple[int, int] = (8, 8)
    off: list[int] = field(default_factory=list)
    tries: list[tuple[int, Attempt]] = field(default_factory=list)
    seed: Optional[int] = None
    attempts: int = 0
    atoms: list[Atom] = field(default_factory=list)

    def count(self) -> int:
        """How many tiles there are."""
        return self.tiles[0] * self.tiles[1]

    def is_on(self, tile: int) -> bool:
        """Whether a number is that of a tile that is on."""
        return tile < self.count() and tile not in self.off

    def owner(self, x: int, y: int) -> Optional[int]:
        """The tile that owns a site, or None off the plane."""
        (tx, ty), (w, h) = self.tiles, self.size
        return y // h * tx + x // w if x < tx * w and y < ty * h else None

    def may_be_off(self, tile: int) -> bool:
        """Whether a tile may be off behind those that are."""
        rising = not self.off or tile > self.off[-1]
        return tile < self.count() and rising and len(self.off) + 1 < self.count()

    def is_in_range(self, line: Line) -> bool:
        """Whether the numbers of a line are in their ranges."""
        match line.kind, line.numbers:
            case "tiles", tiles:
                return all(1 <= n <= 8 for n in tiles)
            case "size", size:
                return all(8 <= n <= 64 for n in size)
            case ("seed" | "order seed"), (seed,):
                return seed <= MASK
            case "off", (tile,):
                return self.may_be_off(tile)
            case "try", (tile, x, y, _):
                return self.is_on(tile) and self.owner(x, y) == tile
            case "atom", (x, y, state):
                owner = self.owner(x, y)
                return owner is not None and self.is_on(owner) and state < 1 << 71
            case "order", tiles:
                return all(self.is_on(tile) for tile in tiles)
        return True

    def is_too_many(self, line: Line) -> bool:
        """Whether a line gives more attempts than there may be."""
        if line.kind == "attempts":
            return line.numbers[0] * (self.count() - len(self.off)) > MOST_ATTEMPTS
        return line.kind == "try" and len(self.tries) >= MOST_ATTEMPTS

    def take(self, n: int, text: bytes) -> None:
        """Takes line n."""
        line = read_line(text)
        if self.kind is None:
            if line is None or line.kind != "feast":
                stop(70, n)
        elif line is None or line.kind not in BEHIND[self.kind] or (line.kind == "off" and not self.second):
            stop(71, n)
        if not self.is_in_range(line):
            stop(72, n)
        if self.is_too_many(line):
            stop(75, n)
        self.put(n, line)

    def put(self, n: int, line: Line) -> None:
        """Adds what line n says."""
        self.kind = line.kind
        match line.kind, line.numbers:
            case "feast", (version,):
                self.second = version == 2
            case "tiles", (across, down):
                self.tiles = (across, down)
            case "size", (columns, rows):
                self.size = (columns, rows)
            case "off", (tile,):
                self.off.append(tile)
            case "seed", (seed,):
                self.seed = seed
            case "attempts", (attempts,):
                self.attempts = attempts
            case "try", (tile, x, y, seed):
                self.tries.append((tile, Attempt(x, y, seed)))
            case "atom", (x, y, _):
                self.atoms.append(Atom(n, x, y, line.name))

    def name(self, names: Collection[bytes]) -> None:
        """Gives the atoms their elements."""
        taken: set[tuple[int, int]] = set()
        for atom in self.atoms:
            if atom.name not in names:
                stop(73, atom.line)
            if (atom.x, atom.y) in taken:
                stop(74, atom.line)
            taken.add((atom.x, atom.y))

    def attempts_of(self, tile: int) -> list[Attempt]:
        """The attempts of a tile."""
        if self.seed is None:
            return [attempt for at, attempt in self.tries if at == tile]
        return self.drawn(tile, self.seed) if self.is_on(tile) else []

    def drawn(self, tile: int, seed: int) -> list[Attempt]:
        """The attempts that a tile of a seeded world draws."""
        (tx, _), (w, h) = self.tiles, self.size
        stream = words((seed + tile) & MASK)
        found = []
        for _ in range(self.attempts):
            y, x = divmod(next(stream) % (w * h), w)
            found.append(Attempt(tile % tx * w + x, tile // tx * h + y, next(stream)))
        return found


def read_world(text: bytes, names: Collection[bytes]) -> World:
    """The world of a text; `Stop` where it is refused."""
    world = World()
    lines = lines_of(text)
    for n, line in enumerate(lines, 1):
        if line and not line.startswith(b"#"):
            world.take(n, line)
    if world.kind is None:
        stop(70, len(lines) + 1)
    if world.kind in ("feast", "tiles", "seed"):
        stop(76, len(lines) + 1)
    world.name(names)
    return world


def world_fault(text: bytes, names: Collection[bytes]) -> Optional[Fault]:
    """The refusal of a world whose elements have these names, or None."""
    try:
        read_world(text, names)
    except Stop as found:
        return found.fault
    return None


def turn(value: int, by: int) -> int:
    """A word of 64 bits, turned to the left."""
    return (value << by | value >> 64 - by) & MASK


def words(seed: int) -> Iterator[int]:
    """The words of Xoshiro256++, whose state is filled by SplitMix64 from a seed."""
    state = []
    for step in range(1, 5):
        z = (seed + step * 0x9E3779B97F4A7C15) & MASK
        z = ((z ^ z >> 30) * 0xBF58476D1CE4E5B9) & MASK
        z = ((z ^ z >> 27) * 0x94D049BB133111EB) & MASK
        state.append(z ^ z >> 31)
    a, b, c, d = state
    while True:
        yield (turn((a + d) & MASK, 23) + a) & MASK
        c, d, shifted = c ^ a, d ^ b, b << 17 & MASK
        a, b, c, d = a ^ d, b ^ c, c ^ shifted, turn(d, 45)
