"""Stamps: a drawing or a pattern in RLE, as acts that put its atoms on the plane."""
import tempfile
from collections.abc import Iterable, Iterator, Sequence
from pathlib import Path

from ..base.errors import LabError
from ..base.limits import MOST_COLUMNS
from ..formats.areas import Area, Site
from ..formats.layout import Layout
from .drawing import Drawing, DrawnSymbol
from .paint import KEY, key

NAME = "the drawing"


def stamped(text: str, keys: Sequence[str], place: Site, layout: Layout) -> list[str]:
    """The acts, without their leg, that put the atoms of a drawing on the plane, with its first symbol at a place.

    A key is `S=Element[:member=value,..]`, as `./lab paint` has it. Refuses a text that is neither, a symbol without
    a key, and a faulty key. Whether the atoms lie in the plane is tried by the acts.
    """
    atoms: dict[str, str] = {}
    for words in keys:
        symbol, _ = key(words, layout)
        match = KEY.fullmatch(words)
        if match is None or symbol in atoms:
            raise LabError(f"--key {symbol}: it is given twice")
        atoms[symbol] = ":".join(part for part in (match["element"], match["members"]) if part)
    sites: dict[str, set[Site]] = {}
    for x, y, symbol in marks_of(text):
        if symbol not in atoms:
            raise LabError(f"{NAME}: {symbol} at column {x} of row {y} has no key")
        sites.setdefault(atoms[symbol], set()).add((x + place[0], y + place[1]))
    if not sites:
        raise LabError(f"{NAME} has no symbols")
    return [f"put:{atom}:{Area.of_sites(where).text()}" for atom, where in sites.items()]


def within_a_plane(marks: Iterable[DrawnSymbol]) -> Iterator[tuple[int, int, str]]:
    """The column, the row and the symbol of marks. Refuses one that no plane has a site for, before the next one is made."""
    for mark in marks:
        if max(mark.x, mark.y) >= MOST_COLUMNS:
            raise LabError(f"{NAME}: {mark.symbol} would stand at {mark.x} {mark.y}, and a plane has at most "
                           f"{MOST_COLUMNS} columns and rows")
        yield mark.x, mark.y, mark.symbol


def marks_of(text: str) -> list[tuple[int, int, str]]:
    """The column, the row and the symbol of each mark of a drawing."""
    with tempfile.TemporaryDirectory() as room:
        path = Path(room) / "drawing"
        path.write_text(text, newline="")
        try:
            return list(within_a_plane(Drawing.read(path).marks))
        except LabError as error:
            raise LabError(str(error).replace(str(path), NAME)) from error
