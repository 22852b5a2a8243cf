"""The worlds that are measured, and the elements in them."""

import dataclasses
import pathlib
import random
import sys

HERE = pathlib.Path(__file__).resolve().parent
sys.path.insert(0, str(HERE.parent / "tools"))
from feast_lab.lab.base.limits import STATE_BITS  # noqa: E402

EXAMPLES = HERE.parent / "examples"
SIDE = 64
ATTEMPTS = 1_000_000


@dataclasses.dataclass(frozen=True)
class Share:
    """An element, on how many sites it stands, and how many of the first bits of its state are drawn."""

    name: str
    sites: int
    bits: int = 0


@dataclasses.dataclass(frozen=True)
class Mix:
    """The text of an element file, and which of its elements stand on how many of so many sites."""

    text: str
    shares: tuple[Share, ...]
    among: int

    def drawn(self, draw: random.Random) -> str | None:
        """What stands on a site: a name and mostly no state, or None."""
        site = draw.randrange(self.among)
        for share in self.shares:
            if site < share.sites:
                # the first digit of a state has three bits of it, and each further one four
                state = f" {draw.getrandbits(share.bits) << (STATE_BITS - share.bits):018x}" if share.bits else ""
                return share.name + state
            site -= share.sites
        return None


ELEMENTS = """element Wander { EventWindow ew; Random random; Void behave() {
  Unsigned i = random.create(4) + 1; if (ew.isEmpty(i)) ew.swap(0, i); } }
element Stone { Void behave() { } }
"""
# an element that goes east
WALKER = "element Walker { EventWindow ew; Void behave() { ew.swap(0, 4); } }\n"
# one site in eight with an element that wanders to an empty neighbour, and one with one that stays
WANDERERS = Mix(ELEMENTS, (Share("Wander", 1), Share("Stone", 1)), 8)
# the elements of the example on nine sites in ten
SORTERS = Mix((EXAMPLES / "sorter.ulam").read_text(), (Share("Sorter", 6, 7), Share("Number", 3, 7)), 10)


def world(
    tiles: int = 1, attempts: int = ATTEMPTS, scripted: bool = False, side: int = SIDE, mix: Mix = WANDERERS
) -> str:
    """A world of so many tiles each way, with so many attempts together, drawn or written out."""
    draw = random.Random(5)
    lines = ["feast 1", f"tiles {tiles} {tiles}", f"size {side} {side}"]
    if scripted:
        lines += [f"try 0 {draw.randrange(side)} {draw.randrange(side)} {draw.getrandbits(64):016x}" for _ in range(attempts)]
    else:
        lines += ["seed 7", f"attempts {attempts // tiles**2}"]
    for y in range(side * tiles):
        for x in range(side * tiles):
            atom = mix.drawn(draw)
            if atom:
                lines.append(f"atom {x} {y} {atom}")
    return "\n".join(lines) + "\n"


@dataclasses.dataclass(frozen=True)
class Example:
    """An example of one tile, and the element files that it needs."""

    name: str
    files: tuple[str, ...]

    @property
    def text(self) -> str:
        """The elements, as one file."""
        return "".join((EXAMPLES / f"{name}.ulam").read_text() for name in self.files)

    def repeated(self, tiles: int, side: int, attempts: int = ATTEMPTS) -> str:
        """A world of so many tiles each way whose plane is that of the example, repeated as often as there is room."""
        known = [line.split() for line in (EXAMPLES / f"{self.name}.world").read_text().splitlines()]
        columns, rows = next((int(line[1]), int(line[2])) for line in known if line[:1] == ["size"])
        lines = ["feast 1", f"tiles {tiles} {tiles}", f"size {side} {side}", "seed 7", f"attempts {attempts // tiles**2}"]
        for top in range(0, tiles * side - rows + 1, rows):
            for left in range(0, tiles * side - columns + 1, columns):
                atoms = (line for line in known if line[:1] == ["atom"])
                lines += [f"atom {left + int(x)} {top + int(y)} {' '.join(atom)}" for _, x, y, *atom in atoms]
        return "\n".join(lines) + "\n"


HORDE = Example("horde", ("horde", "regulator"))
LIFE = Example("life", ("life",))


def lines_of_tries(tiles: int, side: int = 8, attempts: int = ATTEMPTS) -> str:
    """A world of so many tiles each way whose attempts are written out, one tile after another; it has no atoms."""
    draw = random.Random(1)
    count = tiles * tiles
    lines = ["feast 1", f"tiles {tiles} {tiles}", f"size {side} {side}"]
    for number in range(attempts):
        tile = number * count // attempts
        x = tile % tiles * side + draw.randrange(side)
        y = tile // tiles * side + draw.randrange(side)
        lines.append(f"try {tile} {x} {y} {draw.getrandbits(64):016x}")
    return "\n".join(lines) + "\n"
