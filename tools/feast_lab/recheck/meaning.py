"""Events by the meaning of their elements' source (docs/meaning.md, "Events", "The window", "Random numbers").

Each function of an element becomes a function of Python, whose text functions.py makes of the typed tree; what that text
calls is here. In such a text p is the place of the event's centre, g are the atoms of the grid, and d is how many calls wait.
"""
from __future__ import annotations

from typing import Any, Callable, NoReturn

from . import trees
from .draws import STEP, WORD, mixed
from .elements import elements_of
from .functions import python_text
from .limits import MOST_CALLS, MOST_TURNS
from .windows import Event, Grid, kind_of


class Failed(Exception):
    """An event fails, by one of the causes of docs/meaning.md."""


def fail(cause: int) -> NoReturn:
    """Fails with a cause."""
    raise Failed(cause)


class Sites(dict[int, int]):
    """The offset in a grid's lists of each site of a window."""

    def __missing__(self, number: int) -> int:
        raise Failed(4)


class Window:
    """The window of the event that is made: what was there before, by which a failed event is undone."""

    def __init__(self, grid: Grid) -> None:
        self.atoms = grid.atoms
        self.live = grid.live
        self.sites = Sites(enumerate(grid.offsets))
        self.before: list[tuple[int, int]] = []

    def put(self, p: int, i: int, atom: int) -> None:
        """Puts an atom at site i, which has no effect if that isn't live."""
        place = p + self.sites[i]
        if self.live[place]:
            self.before.append((place, self.atoms[place]))
            self.atoms[place] = atom

    def swap(self, p: int, i: int, j: int) -> None:
        """Exchanges two sites if both are live."""
        one, other = p + self.sites[i], p + self.sites[j]
        if self.live[one] and self.live[other]:
            atoms = self.atoms
            self.before += (one, atoms[one]), (other, atoms[other])
            atoms[one], atoms[other] = atoms[other], atoms[one]

    def item(self, p: int, kind: int, i: int, length: int) -> int:
        """The acting atom, once it is sure that site 0 has its type and that i is an index."""
        if kind_of(self.atoms[p]) != kind:
            raise Failed(6)
        return self.part(self.atoms[p], i, length)

    def part(self, atom: int, i: int, length: int) -> int:
        """The atom, once it is sure that i is an index."""
        if not 0 <= i < length:
            raise Failed(7)
        return atom

    def undo(self, p: int) -> None:
        """Leaves the old window with the empty atom at site 0."""
        for place, atom in reversed(self.before):
            self.atoms[place] = atom
        self.atoms[p] = 0


class Random:
    """The random numbers of the event that is made."""

    state = 0

    def below(self, n: int) -> int:
        """The next random word modulo n."""
        if n < 1:
            raise Failed(5)
        self.state = self.state + STEP & WORD
        return mixed(self.state) % n


def quotient(a: int, b: int) -> int:
    """The quotient, truncated toward 0."""
    return a // b if (a < 0) == (b < 0) else -(-a // b)


def remainder(a: int, b: int) -> int:
    """The remainder, which has the sign of the dividend."""
    return a - b * quotient(a, b)


def shifted(bits: int, count: int) -> int:
    """Bits moved up by a count, or down by a negative one; 64 and more leave nothing."""
    return 0 if abs(count) >= 64 else bits << count if count >= 0 else bits >> -count


def ones(bits: int) -> int:
    """How many ones are among bits."""
    return bin(bits).count("1")


def event_maker(classes: list[trees.Class], grid: Grid) -> Event:
    """What makes an event on a grid with the elements of these classes, at a place and with a seed."""
    window, random = Window(grid), Random()
    space: dict[str, Any] = {
        "g": grid.atoms, "live": grid.live, "sites": window.sites, "offsets": grid.offsets, "put": window.put, "swap": window.swap,
        "item": window.item, "part": window.part, "below": random.below, "fail": fail, "turns": 0,
        "quotient": quotient, "remainder": remainder, "shifted": shifted, "ones": ones,
    }
    text, names = python_text(elements_of(classes), grid.offsets, MOST_CALLS)
    exec(compile(text, "<elements>", "exec"), space)
    behave: dict[int, Callable[[int, int], None]] = {number: space[name] for number, name in names.items()}
    atoms = grid.atoms

    def event(p: int, seed: int) -> None:
        act = behave.get(kind_of(atoms[p]))
        if act is None:
            return
        space["turns"] = MOST_TURNS
        random.state = seed
        window.before.clear()
        try:
            act(p, 0)
        except (Failed, ZeroDivisionError):
            window.undo(p)

    return event
