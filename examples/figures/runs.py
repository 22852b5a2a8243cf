"""Runs of the examples, for the tables of their pages: worlds with other lines, and what their reports say."""
import os
import re
import subprocess
import tempfile
from collections import Counter
from collections.abc import Callable, Iterable, Mapping, Sequence
from concurrent.futures import ThreadPoolExecutor
from dataclasses import dataclass
from functools import cache
from pathlib import Path
from typing import TypeVar

EXAMPLES = Path(__file__).resolve().parent.parent
STATE_BITS = 71
# How many runs are made side by side.
SIDE_BY_SIDE = 2

Given = TypeVar("Given")
Made = TypeVar("Made")


@dataclass(frozen=True)
class Atom:
    """An atom of a report: its column and row, its element, and its state as a number."""

    x: int
    y: int
    name: str
    state: int

    def member(self, first: int, bits: int) -> int:
        """The number in some of the bits of the state; bit 0 is the most significant one."""
        return self.state >> (STATE_BITS - first - bits) & (1 << bits) - 1


@dataclass(frozen=True)
class Report:
    """What a report says: its atoms, and the numbers of its events and of its abandoned attempts."""

    atoms: list[Atom]
    events: int
    abandoned: int
    text: bytes

    def counts(self) -> Counter[str]:
        """How many atoms each element has."""
        return Counter(atom.name for atom in self.atoms)

    def of(self, name: str) -> list[Atom]:
        """The atoms of an element."""
        return [atom for atom in self.atoms if atom.name == name]

    def centres(self) -> list[tuple[int, int, int]]:
        """The tile, the column and the row of each event, in their order."""
        lines = self.text[self.text.index(b"\njournal ") + 1:self.text.rindex(b"\nabandoned ")].splitlines()[1:]
        return [(int(tile), int(x), int(y)) for _, tile, _, x, y, _ in map(bytes.split, lines)]


def world(name: str, **lines: object) -> str:
    """The text of a world of the examples, with other lines: `seed=5`, `order="seed 7"`, `size="8 8"`."""
    return changed((EXAMPLES / f"{name}.world").read_text(), **lines)


def changed(text: str, **lines: object) -> str:
    """A text of a world with other lines, each of which it has once."""
    for word, value in lines.items():
        text, times = re.subn(rf"(?m)^{word} .*$", f"{word} {value}", text)
        if times != 1:
            raise ValueError(f"a world has {times} lines `{word}`, not one")
    return text


def seeded(name: str, seed: int, **lines: object) -> str:
    """A stepped world with another seed, and that of its order 500 behind it."""
    return world(name, seed=seed, order=f"seed {seed + 500}", **lines)


def program() -> str:
    """The program: that of FEAST_PROGRAM, or ./feast."""
    return os.environ.get("FEAST_PROGRAM", str(EXAMPLES.parent / "feast"))


@cache
def elements(*names: str) -> tuple[str, ...]:
    """The files of elements of the examples."""
    return tuple(str(EXAMPLES / f"{name}.ulam") for name in names)


def report(text: str, files: Sequence[str], verb: str = "run") -> Report:
    """The report of a run of a world."""
    with tempfile.TemporaryDirectory() as folder:
        path = Path(folder, "world")
        path.write_text(text)
        done = subprocess.run([program(), verb, str(path), *files], capture_output=True, check=False)
    if done.returncode:
        raise ValueError(f"{' '.join(files)}: {done.stdout[:200].decode()}")
    return read(done.stdout)


def legs(text: str, number: int, files: Sequence[str]) -> list[Report]:
    """The planes that the legs of a chain leave, as `./lab chain` makes them of a world: so many legs, of which each makes
    the attempts of the world and begins with the atoms of the one before. The reports are without journals."""
    chain = changed(text.replace("feast 1\n", "chain 1\n", 1), attempts=f"{plan(text)}\nlegs {number}\njournal none")
    reports = report(chain, files).text.split(b"feast 3\n")[1:]
    return [read(b"feast 3\n" + it) for it in reports]


def plan(text: str) -> int:
    """How many attempts a world plans for each tile."""
    return int(re.findall(r"(?m)^attempts (\d+)$", text)[0])


def read(text: bytes) -> Report:
    """What a report says."""
    end = text.index(b"\njournal ") + 1
    lines = [line.split() for line in text[:end].decode().splitlines()[2:]]
    atoms = [Atom(int(x), int(y), name, int(state, 16)) for x, y, name, state in lines]
    events = int(text[end:text.index(b"\n", end)].split()[1])
    last = text.rindex(b"\nabandoned ") + 1
    abandoned = int(text[last:text.index(b"\n", last)].split()[1])
    return Report(atoms, events, abandoned, text)


def source(name: str, changes: Mapping[str, str], folder: Path) -> str:
    """A file of elements of the examples with other texts, each of which it has once."""
    text = (EXAMPLES / f"{name}.ulam").read_text()
    for old, new in changes.items():
        if text.count(old) != 1:
            raise ValueError(f"{name}.ulam has `{old}` {text.count(old)} times, not once")
        text = text.replace(old, new)
    path = folder / f"{name}.ulam"
    path.write_text(text)
    return str(path)


def each(make: Callable[[Given], Made], given: Iterable[Given]) -> list[Made]:
    """What is made of each, side by side."""
    with ThreadPoolExecutor(SIDE_BY_SIDE) as pool:
        return list(pool.map(make, given))


def first(holds: Callable[[int], bool], step: int, most: int) -> int | None:
    """The least multiple of a step for which something holds that goes on to hold; None if it holds for none up to `most`."""
    low, high = 0, most // step
    if not holds(high * step):
        return None
    while high - low > 1:
        middle = (low + high) // 2
        low, high = (low, middle) if holds(middle * step) else (middle, high)
    return high * step


def span(numbers: Iterable[float], digits: int = 0) -> str:
    """The least and the greatest of numbers, as a table shows them."""
    shown = [f"{number:,.{digits}f}" for number in (min(found), max(found))] if (found := list(numbers)) else []
    return " to ".join(dict.fromkeys(shown))


def table(heads: Sequence[str], rows: Iterable[Sequence[object]]) -> str:
    """A table of a page."""
    lines = [[f"{cell:,}" if isinstance(cell, int) else str(cell) for cell in line] for line in (heads, *rows)]
    shown = ["| " + " | ".join(line) + " |" for line in lines]
    return "\n".join([shown[0], "|" + "---|" * len(heads), *shown[1:], ""])
