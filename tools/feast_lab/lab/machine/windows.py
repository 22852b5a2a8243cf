"""Whether events that the lab made again end as the program makes them, window by window.

The program is given each event with the window that it began with, and has to come to the same window. So that one
call of the program does this for many events, their windows are laid out beside one another on planes of their own:
those that are wholly live on a large one, and those at a border on one whose tiles stand apart, as far from the borders
of a tile as they were from those of their plane. A window of another form, near a tile that is off, is tried alone, in
its place on its own plane.
"""
from collections.abc import Iterable, Iterator, Sequence
from dataclasses import dataclass, field, replace
from itertools import product
from pathlib import Path

from ..base.files import write_new
from ..base.limits import MOST_ACROSS, MOST_SIDE
from ..base.program import Program
from ..formats.world import World
from .maker import OFFSETS, REACH, MadeEvent, EventMaker

BOX = 2 * REACH + 1
LOW, MIDDLE, HIGH = range(3)  # where a window lies: near the border before it, near none, near the border behind it
Form = tuple[int, int, int, int]  # where across, how far from that border, where down, how far
Place = tuple[int, int, int]  # a tile, and a site of it


class Disagreement(Exception):
    """An event that the lab makes otherwise than the program; its text says which."""


@dataclass
class Sheet:
    """A plane on which windows are laid out, and the events whose windows lie there, each with its place."""

    world: World
    free: dict[tuple[int, int], Iterator[Place]] = field(default_factory=dict)
    laid: list[tuple[MadeEvent, Place]] = field(default_factory=list)

    def lay(self, made: MadeEvent, form: Form) -> bool:
        """Lays out the window of an event, if there is a place for it."""
        across, from_side, down, from_top = form
        place = next(self.free.setdefault((across, down), places(self.world, across, down)), None)
        if place is not None:
            tile, x, y = place
            x += -from_side if across == HIGH else from_side
            y += -from_top if down == HIGH else from_top
            self.laid.append((made, (tile, x, y)))
        return place is not None

    def clear(self) -> None:
        """Makes the sheet empty."""
        self.free, self.laid = {}, []


class WindowCheck:
    """Takes events one after another, and has the program make them."""

    def __init__(self, program: Program, files: Sequence[Path], room: Path, maker: EventMaker) -> None:
        self.program, self.files, self.room, self.maker = program, files, room, maker
        apart = [tile for tile in range(7 * 7) if tile % 7 % 2 or tile // 7 % 2]
        self.whole = Sheet(World(MOST_ACROSS, MOST_ACROSS, MOST_SIDE, MOST_SIDE))
        self.apart = Sheet(World(7, 7, 4 * REACH + BOX, 4 * REACH + BOX, version=2, off=apart))
        self.own = Sheet(replace(maker.world, seed=None, attempts=None, tries=[]))
        self.texts: dict[int, str] = {}

    def add(self, made: MadeEvent) -> None:
        """Takes an event. Raises Disagreement for one of those so far that the program makes otherwise."""
        form = FORMS.get(made.window.live)
        if form is None:
            record = made.record
            self.own.laid = [(made, (record.tile, record.x, record.y))]
            self.judge(self.own)
            return
        sheet = self.whole if form[0] == form[2] == MIDDLE else self.apart
        if not sheet.lay(made, form):
            self.judge(sheet)
            sheet.lay(made, form)

    def end(self) -> None:
        """Tries the events that were taken and not yet tried."""
        self.judge(self.whole)
        self.judge(self.apart)

    def judge(self, sheet: Sheet) -> None:
        """Has the program make the events of a sheet, compares, and makes the sheet empty."""
        tries, journal = [], []
        before: list[str] = []
        gone: list[str] = []
        come: list[str] = []
        made_by: dict[int, int] = {}
        for stamp, (made, (tile, x, y)) in enumerate(sheet.laid, 1):
            seed = f"{made.record.seed:016x}"
            tries.append(f"try {tile} {x} {y} {seed}\n")
            journal.append(f"{stamp} {tile} {made_by.get(tile, 0)} {x} {y} {seed}\n")
            made_by[tile] = made_by.get(tile, 0) + 1
            changed = made.changed()
            before += self.lines(made.before, range(len(OFFSETS)), x, y)
            gone += self.lines(made.before, changed, x, y)
            come += self.lines(made.after, changed, x, y)
        if journal:
            world, report = self.room / "windows.world", self.room / "windows.report"
            write_new(world, sheet.world.front() + "".join(tries) + "".join(f"atom {line}\n" for line in before))
            write_new(report, f"feast 1\natoms 0\njournal {len(journal)}\n{''.join(journal)}abandoned 0\n")
            found = self.program.call(["replay", world, report, *self.files]).text.splitlines()[2:]
            other = set(before).difference(gone).union(come).symmetric_difference(found)
            if other:
                raise Disagreement(first_of(sheet, other))
        sheet.clear()

    def lines(self, atoms: Sequence[int], sites: Iterable[int], x: int, y: int) -> list[str]:
        """The atoms at sites of a window about a site of the sheet, as lines of a report."""
        return [f"{x + OFFSETS[site][0]} {y + OFFSETS[site][1]} {self.text(atoms[site])}" for site in sites if atoms[site]]

    def text(self, atom: int) -> str:
        """An atom as a report has it."""
        found = self.texts.get(atom)
        if found is None:
            found = self.texts[atom] = self.maker.text(atom)
        return found


def first_of(sheet: Sheet, lines: set[str]) -> str:
    """Which event of a sheet is the first in whose window one of these atoms lies."""
    sites = [(int(x), int(y)) for x, y, _ in (line.split(" ", 2) for line in lines)]
    made = min((made for made, (_, x, y) in sheet.laid
                if any(abs(column - x) + abs(row - y) <= REACH for column, row in sites)), key=lambda it: it.number)
    return (f"event {made.number} at {made.record.x} {made.record.y}: the window that the lab comes to is not the one "
            "of the program's replay")


def places(world: World, across: int, down: int) -> Iterator[Place]:
    """The places on a sheet for windows that lie so: the tile, and the site, for a centre at the very border if near one.

    On a sheet whose tiles are all on, only the borders of the plane are borders; windows near none lie anywhere.
    """
    wide, high = (world.width, world.height) if world.off else (world.columns, world.rows)
    corners = [(left, top) for top in range(0, world.rows, high) for left in range(0, world.columns, wide)
               if world.tile_at(left, top) not in world.off]
    for left, top in corners:
        for y, x in product(steps(high, down), steps(wide, across)):
            yield world.tile_at(left + x, top + y), left + x, top + y


def steps(side: int, way: int) -> list[int]:
    """Where windows that lie so begin between two borders that are so far apart."""
    if way == MIDDLE:
        return [2 * REACH + REACH + BOX * at for at in range((side - 4 * REACH) // BOX)]
    return [0 if way == LOW else side - 1]


def forms() -> Iterator[tuple[tuple[bool, ...], Form]]:
    """The windows that borders of a plane make: which sites are live, and how the window lies."""
    ways = [(MIDDLE, 0), *product((LOW, HIGH), range(REACH))]
    for (across, from_side), (down, from_top) in product(ways, repeat=2):
        live = tuple(is_within(dx, across, from_side) and is_within(dy, down, from_top) for dx, dy in OFFSETS)
        yield live, (across, from_side, down, from_top)


def is_within(step: int, way: int, distance: int) -> bool:
    """Whether so many columns or rows from a centre the plane goes on, if that lies so far from a border."""
    return way == MIDDLE or (step >= -distance if way == LOW else step <= distance)


FORMS = dict(forms())
