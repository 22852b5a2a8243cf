"""Events of a run, made again on a plane of the lab's own by the stack machine in Python."""
from collections.abc import Iterable, Sequence
from typing import NamedTuple

from ..base.limits import STATE_BITS
from ..formats.report import JournalRecord
from ..formats.world import World
from .code import ElementCode
from .event import Deed
from .stack import Ending, Machine

REACH = 4
# The sites of a window in the order of their numbers: by distance, then by column, then by row.
OFFSETS = sorted(((dx, dy) for dx in range(-REACH, REACH + 1) for dy in range(-REACH, REACH + 1)
                  if abs(dx) + abs(dy) <= REACH), key=lambda it: (abs(it[0]) + abs(it[1]), it))
STATE = (1 << STATE_BITS) - 1


class Window(NamedTuple):
    """The sites of a window: the places of their cells, and whether each is live."""

    cells: Sequence[int]
    live: tuple[bool, ...]


class MadeEvent(NamedTuple):
    """An event that was made again: its number in the run, from 1 on, and the atoms of its window before and after.

    What it did is there if it was asked for.
    """

    number: int
    record: JournalRecord
    window: Window
    before: tuple[int, ...]
    after: tuple[int, ...]
    ending: Ending
    deeds: Sequence[Deed]

    @property
    def acting(self) -> int:
        """The type number of the atom that acted."""
        return self.before[0] >> STATE_BITS

    def changed(self) -> list[int]:
        """The sites that have another atom than before."""
        return [site for site, atom in enumerate(self.before) if atom != self.after[site]]


class EventMaker:
    """A plane, and what makes events on it. An atom is a number, its type times 2^71 and its state; the empty one is 0."""

    def __init__(self, world: World, codes: Sequence[ElementCode]) -> None:
        self.world = world
        self.names = ["Empty", *(code.name for code in codes)]
        self.kinds = {name: kind for kind, name in enumerate(self.names)}
        self.cells = [0] * (world.columns * world.rows + 1)
        self.machine = Machine(codes, self.cells)
        self.off = frozenset(world.off)
        self.inner = [dy * world.columns + dx for dx, dy in OFFSETS]
        self.all_live = (True,) * len(OFFSETS)
        self.windows: dict[int, Window] = {}

    def begin(self, lines: Iterable[str]) -> None:
        """Makes the plane one with these atoms, lines of a report."""
        self.cells[:] = [0] * len(self.cells)
        for line in lines:
            x, y, name, state = line.split(" ")
            self.cells[int(y) * self.world.columns + int(x)] = self.kinds[name] << STATE_BITS | int(state, 16)

    def lines(self) -> list[str]:
        """The atoms of the plane, as lines of a report."""
        columns = self.world.columns
        return [f"{cell % columns} {cell // columns} {self.text(atom)}" for cell, atom in enumerate(self.cells) if atom]

    def text(self, atom: int) -> str:
        """An atom as a report has it."""
        return f"{self.names[atom >> STATE_BITS]} {atom & STATE:018x}"

    def window(self, x: int, y: int) -> Window:
        """The window of a centre; those near a border are kept."""
        columns, rows = self.world.columns, self.world.rows
        centre = y * columns + x
        if not self.off and REACH <= x < columns - REACH and REACH <= y < rows - REACH:
            return Window([centre + step for step in self.inner], self.all_live)
        found = self.windows.get(centre)
        if found is None:
            live = tuple(self.is_live(x + dx, y + dy) for dx, dy in OFFSETS)
            cells = [centre + step if is_live else len(self.cells) - 1
                     for step, is_live in zip(self.inner, live, strict=True)]
            found = self.windows[centre] = Window(cells, live)
        return found

    def is_live(self, x: int, y: int) -> bool:
        """Whether a site is one of the plane, and its tile on."""
        world = self.world
        return 0 <= x < world.columns and 0 <= y < world.rows and world.tile_at(x, y) not in self.off

    def make(self, number: int, record: JournalRecord, is_noted: bool = False) -> MadeEvent | None:
        """Makes an event, and notes what it does if that is asked for; nothing happens if its centre is empty."""
        cells = self.cells
        if not cells[record.y * self.world.columns + record.x]:
            return None
        window = self.window(record.x, record.y)
        before = tuple([cells[cell] for cell in window.cells])
        deeds: list[Deed] = []
        self.machine.event.deeds = deeds if is_noted else None
        ending = self.machine.act(window.cells, record.seed)
        return MadeEvent(number, record, window, before, tuple([cells[cell] for cell in window.cells]), ending, deeds)
