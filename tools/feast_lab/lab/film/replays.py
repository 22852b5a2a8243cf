"""The plane of a run at any of its moments, by replays of parts of the journal.

The events of a part, made from the atoms at its beginning, lead to the atoms at its end. So the part is
written as a world of its own, whose tries are the events and whose atoms are those at the beginning, with a
journal of its own, and the program replays that. An event reads and writes its window alone, so atoms far
from all events of the part are left out. For this the plane is kept in blocks as wide and high as a window
reaches: a window lies in the block of its centre and the eight about that.
"""
from collections import Counter, defaultdict
from collections.abc import Callable, Iterable, Sequence
from dataclasses import replace
from functools import partial
from itertools import count
from pathlib import Path
from typing import TypeVar

from ..base.files import write_new
from ..base.program import Program, Refusal
from ..formats.world import World

SIDE = 4  # how many columns and rows a block has, and how far a window reaches
Block = tuple[int, int]
Moment = TypeVar("Moment")


class Plane:
    """The plane of a run. Its sites are numbered row by row; a change is a site with its new atom, or none.

    An atom is the text `NAME STATE`, as a report has it, and no atom an empty text.
    """

    is_whole = False  # whether whole reports are needed to play on it

    def __init__(self, program: Program, files: Sequence[Path], room: Path) -> None:
        self.coming: Callable[[], Iterable[str]] | None = None  # the atoms of a plane on which nothing is played
        self.held: set[str] = set()  # those that it has
        self.program = program
        self.files = files
        self.room = room
        self.world = World(1, 1, 8, 8)
        self.blocks: defaultdict[Block, set[str]] = defaultdict(set)  # the atoms, as lines of a report
        self.failed: Counter[int] = Counter()  # how many events failed at a site, if someone looks for that

    def begin(self, world: World) -> dict[int, str]:
        """Makes the plane that of the beginning of a world; gives back what changed."""
        self.world = replace(world, seed=None, attempts=None, tries=[], atoms=[], order=[])
        return self.put(atom.text() for atom in world.atoms)

    def comes_to(self, atoms: Callable[[Moment], Iterable[str]], moment: Moment) -> None:
        """Has the plane be one with the atoms of a moment, lines of a report, as soon as someone looks (`settle`)."""
        self.coming = partial(atoms, moment)

    def settle(self) -> dict[int, str]:
        """Makes the plane what it was to come to; gives back what changed."""
        return {} if self.coming is None else self.swap(self.coming())

    def swap(self, atoms: Iterable[str]) -> dict[int, str]:
        """Makes a plane on which nothing is played one with these atoms, lines of a report; gives back what changed."""
        self.coming = None
        before, self.held = self.held, set(atoms)
        wide, changes = self.world.columns, dict[int, str]()
        for line in before - self.held:
            x, y, _ = line.split(" ", 2)
            changes[int(y) * wide + int(x)] = ""
        for line in self.held - before:
            x, y, atom = line.split(" ", 2)
            changes[int(y) * wide + int(x)] = atom
        return changes

    def put(self, atoms: Iterable[str]) -> dict[int, str]:
        """Makes the plane one with these atoms, lines of a report; gives back what changed."""
        return self.change(set().union(*self.blocks.values()), set(atoms))

    def play(self, records: Sequence[str]) -> dict[int, str]:
        """Makes the next events, which are lines of a journal; gives back what changed."""
        if not records:
            return {}
        fields = " ".join(records).split(" ")  # six of each event
        sites = set(zip(fields[3::6], fields[4::6], strict=True))
        centres = {(int(x) // SIDE, int(y) // SIDE) for x, y in sites}
        reached = {(across + x, down + y) for across, down in centres for x in (-1, 0, 1) for y in (-1, 0, 1)}
        before = set().union(*(self.blocks[block] for block in reached if block in self.blocks))
        return self.change(before, set(self.replayed(fields, before)))

    def change(self, before: set[str], after: set[str]) -> dict[int, str]:
        """Puts atoms in the place of others, all as lines of a report; gives back what changed."""
        changes = {}
        for line in before - after:
            x, y, _ = line.split(" ", 2)
            self.blocks[int(x) // SIDE, int(y) // SIDE].remove(line)
            changes[int(y) * self.world.columns + int(x)] = ""
        for line in after - before:
            x, y, atom = line.split(" ", 2)
            self.blocks[int(x) // SIDE, int(y) // SIDE].add(line)
            changes[int(y) * self.world.columns + int(x)] = atom
        return changes

    def replayed(self, fields: Sequence[str], before: Iterable[str]) -> list[str]:
        """The lines of the atoms that events leave, by a call of the program; each event has six of the fields."""
        stamps, tiles, _, columns, rows, seeds = (fields[at::6] for at in range(6))
        turns = {tile: count() for tile in set(tiles)}
        made = [next(turns[tile]) for tile in tiles]
        tries = "".join(map("try {} {} {} {}\n".format, tiles, columns, rows, seeds))
        journal = "".join(map("{} {} {} {} {} {}\n".format, stamps, tiles, made, columns, rows, seeds))
        world, report = self.room / "part.world", self.room / "part.report"
        atoms = "".join(f"atom {line}\n" for line in before)
        write_new(world, self.world.front() + tries + atoms)
        write_new(report, f"feast 1\natoms 0\njournal {len(made)}\n{journal}abandoned 0\n")
        return self.program.call(["replay", world, report, *self.files]).text.splitlines()[2:]


def call_on(program: Program, report: Path, data: bytes, room: Path, words: Sequence[str | Path], files: Sequence[Path]) -> list[str]:
    """The lines that a call writes of a report, which has these bytes or leads to them, between the words and the files."""
    plain = room / "whole.report"
    write_new(plain, data)
    before, after = words[:2], words[2:]
    try:
        return program.call([*before, plain, *after, *files]).text.splitlines()
    except Refusal as refusal:
        raise Refusal(str(refusal).replace(str(plain), str(report))) from refusal
