"""What the symbols of a map stand for, and the atoms that come of it."""
import re
from dataclasses import dataclass

from ..base.errors import LabError
from ..formats.layout import Layout
from ..formats.world import Placed, World
from .drawing import Drawing
from .frame import state

KEY = re.compile(r"(?P<symbol>[^=]+|=)=(?P<element>\w+)(?::(?P<members>.*))?")


@dataclass(frozen=True)
class Key:
    """What a symbol stands for."""

    element: str
    state: int


def keys_of(texts: list[str], layout: Layout, drawing: Drawing) -> dict[str, Key]:
    """What each symbol stands for."""
    keys: dict[str, Key] = {}
    for text in texts:
        symbol, meant = key(text, layout)
        if keys.setdefault(symbol, meant) is not meant:
            raise LabError(f"--key {symbol}: it is given twice")
    for symbol in drawing.empty:
        if symbol in keys:
            raise LabError(f"--key {symbol}: it is always empty in such a map as {drawing.name}")
    return keys


def painted(world: World, drawing: Drawing, keys: dict[str, Key], left: int, top: int) -> list[Placed]:
    """The atoms of a map whose first symbol has a place of the plane."""
    atoms = []
    for mark in drawing.marks:
        if mark.symbol not in keys:
            shown = mark.symbol if mark.symbol.isprintable() else repr(mark.symbol)
            raise LabError(f"{drawing.name}: {shown} at column {mark.x} of row {mark.y} has no --key")
        x, y = mark.x + left, mark.y + top
        if not (0 <= x < world.columns and 0 <= y < world.rows):
            raise LabError(f"{drawing.name}: {mark.symbol} would stand at {x} {y}, "
                           f"outside the plane of {world.columns} by {world.rows} sites")
        atoms.append(Placed(x, y, keys[mark.symbol].element, keys[mark.symbol].state))
    return atoms


def key(text: str, layout: Layout) -> tuple[str, Key]:
    """A symbol and what it stands for."""
    match = KEY.fullmatch(text)
    if match is None:
        raise LabError(f"--key {text}: it has to be S=Element or S=Element:member=value,..")
    return match["symbol"], Key(match["element"], state(f"--key {text}", layout, match["element"], match["members"]))
