"""World files: where a run begins, and what it attempts."""
import re
from collections.abc import Iterator
from dataclasses import dataclass, field
from pathlib import Path
from typing import NoReturn

from ..base.errors import LabError
from ..base.files import read_byte_text
from ..base.limits import LEAST_SIDE, LONGEST_NAME, MOST_ACROSS, MOST_ATTEMPTS, MOST_SIDE, STATE_BITS

NAME = rf"[A-Z][A-Za-z0-9_]{{0,{LONGEST_NAME - 1}}}"
NUMBER = r"(?:0|[1-9][0-9]{0,19})"
FORMS = {word: re.compile(form) for word, form in {
    "feast": "feast ([12])",
    "tiles": f"tiles ({NUMBER}) ({NUMBER})",
    "size": f"size ({NUMBER}) ({NUMBER})",
    "off": f"off ({NUMBER})",
    "seed": f"seed ({NUMBER})",
    "attempts": f"attempts ({NUMBER})",
    "try": f"try ({NUMBER}) ({NUMBER}) ({NUMBER}) ([0-9a-f]{{16}})",
    "atom": f"atom ({NUMBER}) ({NUMBER}) ({NAME})(?: ([0-9a-f]{{18}}))?",
    "order": f"order (?:seed ({NUMBER})|({NUMBER}(?: {NUMBER})*))",
}.items()}
# which lines may come behind a line
BEHIND = {
    "": ("feast",),
    "feast": ("tiles",),
    "tiles": ("size",),
    "size": ("off", "seed", "try", "atom", "order"),
    "off": ("off", "seed", "try", "atom", "order"),
    "seed": ("attempts",),
    "attempts": ("atom", "order"),
    "try": ("try", "atom", "order"),
    "atom": ("atom", "order"),
    "order": ("order",),
}


@dataclass(frozen=True)
class Attempt:
    """An attempt that a world writes out: its tile, its site, and the seed of its random numbers."""

    tile: int
    x: int
    y: int
    seed: int


@dataclass(frozen=True)
class Placed:
    """An atom on the plane; its state is a number of 71 bits."""

    x: int
    y: int
    name: str
    state: int = 0

    def text(self) -> str:
        """The atom as a report has it; a world has `atom` before it."""
        return f"{self.x} {self.y} {self.name} {self.state:018x}"


@dataclass
class World:
    """A world. It has a seed and a number of attempts for each tile, or else a list of tries.

    An order that is a number is the seed of a drawn one; a list has the tiles themselves.
    """

    tiles_x: int
    tiles_y: int
    width: int
    height: int
    version: int = 1
    off: list[int] = field(default_factory=list)
    seed: int | None = None
    attempts: int | None = None
    tries: list[Attempt] = field(default_factory=list)
    atoms: list[Placed] = field(default_factory=list)
    order: int | list[int] = field(default_factory=list[int])

    @staticmethod
    def read(path: Path) -> "World":
        """The world of a file. The program's own reading is the judge of what else is wrong with it."""
        return WorldReader(path).world()

    @property
    def tiles(self) -> int:
        """How many tiles there are, on or off."""
        return self.tiles_x * self.tiles_y

    @property
    def columns(self) -> int:
        """How many columns the plane has."""
        return self.tiles_x * self.width

    @property
    def rows(self) -> int:
        """How many rows the plane has."""
        return self.tiles_y * self.height

    @property
    def sites(self) -> int:
        """How many live sites there are: those whose tile is on."""
        return (self.tiles - len(self.off)) * self.width * self.height

    def tile_at(self, x: int, y: int) -> int:
        """The tile that owns a site."""
        return y // self.height * self.tiles_x + x // self.width

    def front(self) -> str:
        """The lines before the atoms."""
        lines = [f"feast {self.version}", f"tiles {self.tiles_x} {self.tiles_y}", f"size {self.width} {self.height}"]
        lines += [f"off {tile}" for tile in self.off]
        if self.seed is not None:
            lines += [f"seed {self.seed}", f"attempts {self.attempts}"]
        lines += [f"try {it.tile} {it.x} {it.y} {it.seed:016x}" for it in self.tries]
        return "".join(line + "\n" for line in lines)

    def back(self) -> str:
        """The line behind the atoms, if there is one."""
        if isinstance(self.order, int):
            return f"order seed {self.order}\n"
        return f"order {' '.join(map(str, self.order))}\n" if self.order else ""

    def text(self) -> str:
        """The world as a file has it."""
        return self.front() + "".join(f"atom {atom.text()}\n" for atom in self.atoms) + self.back()


class WorldReader:
    """Reads the lines of a world file, one by one."""

    def __init__(self, path: Path) -> None:
        self.path = path
        self.number = 0
        self.numbers: list[int] = []
        self.last = ""

    def world(self) -> World:
        """The world that the file says."""
        found = World(0, 0, 0, 0)
        for line in self.lines():
            word = line.partition(" ")[0]
            if word not in BEHIND[self.last] or (word == "off" and found.version == 1):
                self.fault(f"a world has no such line here: {line[:40]}")
            match = FORMS[word].fullmatch(line)
            if match is None:
                self.fault(f"no line of a world: {line[:40]}")
            self.take(found, word, match)
            self.last = word
        if self.last in ("", "feast", "tiles", "seed"):
            raise LabError(f"{self.path}: the file ends where a line `{BEHIND[self.last][0]} ..` should follow")
        return found

    def lines(self) -> Iterator[str]:
        """The lines that say something."""
        for self.number, line in enumerate(read_byte_text(self.path).split("\n"), 1):
            bare = line.removesuffix("\r")
            if bare and not bare.startswith("#"):
                yield bare

    def fault(self, text: str) -> NoReturn:
        """Refuses the line in hand."""
        raise LabError(f"{self.path}:{self.number}: {text}")

    def within(self, digits: str, least: int, most: int) -> int:
        """A number that has to be in a range."""
        number = int(digits)
        if not least <= number <= most:
            self.fault(f"{number} is not from {least} to {most}")
        return number

    def take(self, world: World, word: str, match: re.Match[str]) -> None:
        """Puts what a line says into the world."""
        if word == "feast":
            world.version = int(match[1])
        elif word == "tiles":
            world.tiles_x, world.tiles_y = (self.within(match[at], 1, MOST_ACROSS) for at in (1, 2))
        elif word == "size":
            world.width, world.height = (self.within(match[at], LEAST_SIDE, MOST_SIDE) for at in (1, 2))
        elif word == "off":
            world.off.append(self.within(match[1], world.off[-1] + 1 if world.off else 0, world.tiles - 1))
        elif word == "seed":
            world.seed = self.within(match[1], 0, 2**64 - 1)
        elif word == "attempts":
            on = world.tiles - len(world.off)
            world.attempts = self.within(match[1], 0, MOST_ATTEMPTS // max(on, 1))
        elif word == "try":
            tile = self.within(match[1], 0, world.tiles - 1)
            x, y = self.site(world, match[2], match[3])
            world.tries.append(Attempt(tile, x, y, int(match[4], 16)))
        elif word == "atom":
            x, y = self.site(world, match[1], match[2])
            world.atoms.append(Placed(x, y, match[3], self.state(match[4] or "0")))
        else:
            self.take_order(world, match)

    def take_order(self, world: World, match: re.Match[str]) -> None:
        """Puts what a line of the order says into the world; the lines of a list are joined."""
        if self.last == "order" and (match[1] or isinstance(world.order, int)):
            self.fault("an order is one seed, or lists of tiles")
        if match[1]:
            world.order = self.within(match[1], 0, 2**64 - 1)
        elif isinstance(world.order, list):
            world.order += [self.within(tile, 0, world.tiles - 1) for tile in match[2].split(" ")]

    def site(self, world: World, x: str, y: str) -> tuple[int, int]:
        """A site of the plane."""
        return self.within(x, 0, world.columns - 1), self.within(y, 0, world.rows - 1)

    def state(self, digits: str) -> int:
        """A state of 71 bits."""
        state = int(digits, 16)
        if state >> STATE_BITS:
            self.fault(f"{digits} is no state: it has more than {STATE_BITS} bits")
        return state
