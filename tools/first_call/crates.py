"""The crates that the program is made of, as crates.txt lists them, and how heavy they are."""
import os
import re
from collections.abc import Iterator, Mapping
from dataclasses import dataclass
from graphlib import TopologicalSorter
from pathlib import Path

PROGRAM = "feast"
# What a line of code, or of a definition or a proof, adds to the weight of a crate: roughly the seconds of its proof.
EACH_LINE = {".rt": 0.1, ".antt": 0.02}


@dataclass(frozen=True)
class Crate:
    """A crate: its name, its folder, the repository's libraries that it stands on, near and far, and the libraries
    that its line of crates.txt names, the toolchain's among them."""

    name: str
    folder: Path
    below: tuple[str, ...]
    named: tuple[str, ...] = ()

    @property
    def weight(self) -> float:
        """How much there is to prove."""
        return 1 + sum(EACH_LINE[path.suffix] * path.read_bytes().count(b"\n") for path in sources_of(self.folder))


def listed(top: Path) -> dict[str, list[str]]:
    """Each crate of crates.txt with the libraries that it names."""
    rows = re.findall(r"^\s*(\w+)[^:#\n]*:([^#\n]*)", (top / "crates.txt").read_text(), re.M)
    return {name: named.split() for name, named in rows}


def crates_of_program(top: Path) -> list[Crate]:
    """The program's crates, each after those that it stands on."""
    named = listed(top)
    near = {name: [it for it in names if it in named] for name, names in named.items()}
    below: dict[str, tuple[str, ...]] = {}
    for name in TopologicalSorter(near).static_order():
        below[name] = tuple(dict.fromkeys(far for it in near[name] for far in (*below[it], it)))
    return [Crate(name, top / "crates" / name, below[name], tuple(named[name])) for name in (*below[PROGRAM], PROGRAM)]


def chains(crates: list[Crate], weights: Mapping[str, float]) -> dict[str, float]:
    """The weight of the heaviest chain of crates, each above the one before it, that begins with each crate."""
    found: dict[str, float] = {}
    for crate in reversed(crates):
        found[crate.name] = weights[crate.name] + max((found[it.name] for it in crates if crate.name in it.below), default=0.0)
    return found


def sources_of(folder: Path) -> Iterator[Path]:
    """The code, definitions and proofs below a folder, in an order that is always the same; what is built doesn't count."""
    for at, folders, names in os.walk(folder):
        folders[:] = sorted(it for it in folders if Path(at, it) != folder / "out")
        yield from (Path(at, name) for name in sorted(names) if name.endswith(tuple(EACH_LINE)))
