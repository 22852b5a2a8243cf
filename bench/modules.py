"""Which functions of a crate take longest to prove, by the times of the files that a check leaves.

A check with one job writes a file for each module once the module is checked, so a module took about as long
as its file is younger than the one before. The first file has none before it, and isn't counted.

The modules of a function lie below its path, one named Met among them. So do those of an impl, below the
path and TheImpl, and those of a ring of functions that call each other, which has a path with a + for itself.
"""

from __future__ import annotations

from collections import defaultdict
from dataclasses import dataclass
from pathlib import Path
from typing import Optional

FOLDERS = ("specs.contracts.", "proofs.")


@dataclass(frozen=True)
class Module:
    """A module of a crate, by its dotted path, and the seconds by the clock that its check took."""

    path: str
    seconds: float


@dataclass(frozen=True)
class Share:
    """A function, or an impl or a ring of functions, and the seconds of its modules."""

    name: str
    seconds: float


@dataclass(frozen=True)
class Shares:
    """What the functions of a crate took, the dearest first, and what took the rest: specs, lemmas, links."""

    functions: list[Share]
    rest: float


def modules_of(crate: str, work: Path) -> list[Module]:
    """The modules of a crate, from the files that its check left in a folder, in the order in which they were checked."""
    files = sorted((path.stat().st_mtime_ns, path.stem) for path in work.glob("*/*.oantt"))
    return [
        Module(stem.removeprefix(f"Rattle-{crate}-"), (time - before) / 1e9)
        for (before, _), (time, stem) in zip(files, files[1:])
    ]


def owner(path: str, owners: set[str]) -> Optional[str]:
    """The longest of the owners' paths that a module lies at or below."""
    folder = next((it for it in FOLDERS if path.startswith(it)), None)
    if folder is None:
        return None
    words = path.removeprefix(folder).split(".")
    fronts = (".".join(words[:count]) for count in range(len(words), 0, -1))
    return next((it for it in fronts if it in owners), None)


def shown(path: str) -> str:
    """A path as Rust writes it."""
    name = path.replace("++", "::").replace(".", "::")
    return f"impl {name.removesuffix('::TheImpl')}" if name.endswith("::TheImpl") else name


def shares(modules: list[Module]) -> Shares:
    """Sums the seconds of modules by functions."""
    met = (it.path for it in modules if it.path.startswith("proofs.") and it.path.endswith(".Met"))
    owners = {it.removeprefix("proofs.").removesuffix(".Met") for it in met}
    seconds: defaultdict[Optional[str], float] = defaultdict(float)
    for module in modules:
        seconds[owner(module.path, owners)] += module.seconds
    rest = seconds.pop(None, 0.0)
    functions = [Share(shown(path), took) for path, took in seconds.items() if path is not None]
    return Shares(sorted(functions, key=lambda it: -it.seconds), rest)
