"""What the stack machine has at hand while it makes an event: operands, slots, turns, random words, and the window."""
from collections.abc import Callable, Sequence
from typing import NamedTuple

from ..base.draws import GOLDEN, split_mix
from ..base.limits import STATE_BITS, MOST_TURNS
from .numbers import WORD

CAUSES = {
    1: "no turn was left",
    2: "calls were nested too deep",
    3: "a number was divided by 0",
    4: "there is no such site",
    5: "the bound of a random number was below 1",
    6: "site 0 no longer had the acting type",
    7: "an index lay outside its array",
}
SITES = 41
Step = Callable[[], int]  # does what an instruction says, and gives back the place of the next one


class Failed(Exception):
    """An event that fails; its argument is the cause, 1 to 7."""


class Deed(NamedTuple):
    """Something that an event did, in a function so many calls deep below `behave`.

    A call has the number of the function; a draw the word, the bound, and whether it was by `oneIn`; a swap the two
    sites and whether both are live; a store the site, whether it is live, and the atom.
    """

    depth: int
    what: str
    numbers: tuple[int, ...]


class Event:
    """The event in hand, on the cells of a plane, of which the last stands for all sites that aren't live and is empty.

    Operands are one list for all functions that are at work; those of the one that runs begin at `base`.
    """

    def __init__(self, cells: list[int]) -> None:
        self.cells = cells
        self.nowhere = len(cells) - 1
        self.operands: list[int] = []
        self.waiting: list[tuple[int, list[int], int]] = []  # the place to go on at, the slots, and the base
        self.deeds: list[Deed] | None = None
        self.begin((self.nowhere,) * SITES, 0, 0)

    def begin(self, sites: Sequence[int], seed: int, slots: int) -> None:
        """Begins an event of the atom at the first of the sites, each the place of its cell."""
        self.sites, self.seed = sites, seed
        self.acting = self.cells[sites[0]] >> STATE_BITS
        self.turns = MOST_TURNS
        self.before: dict[int, int] = {}  # the cells that were written, with what they were
        self.operands.clear()
        self.waiting.clear()
        self.slots = [0] * slots
        self.base = 0

    def fail(self) -> None:
        """Makes the window what it was, with an empty centre."""
        for cell, atom in self.before.items():
            self.cells[cell] = atom
        centre = self.sites[0]
        self.before = {centre: self.cells[centre]}
        self.cells[centre] = 0

    def write(self, cell: int, atom: int) -> None:
        """Puts an atom into a cell."""
        self.before.setdefault(cell, self.cells[cell])
        self.cells[cell] = atom

    def own(self) -> int:
        """The atom at site 0, which has to be of the acting type."""
        atom = self.cells[self.sites[0]]
        if atom >> STATE_BITS != self.acting:
            raise Failed(6)
        return atom

    def cell_of(self, site: int) -> int:
        """The place of the cell of a site."""
        if not 0 <= site < SITES:
            raise Failed(4)
        return self.sites[site]

    def take_turn(self) -> None:
        """Takes a turn, if one is left."""
        if self.turns == 0:
            raise Failed(1)
        self.turns -= 1

    def random(self, bound: int, is_one_in: bool) -> int:
        """A random number below a bound: the next word of SplitMix64, modulo it."""
        if bound < 1:
            raise Failed(5)
        word = split_mix(self.seed)
        self.seed = self.seed + GOLDEN & WORD
        self.note("draw", word, bound, is_one_in)
        return word % bound

    def note(self, what: str, *numbers: int) -> None:
        """Notes a deed, if someone wants to know."""
        if self.deeds is not None:
            self.deeds.append(Deed(len(self.waiting), what, numbers))
