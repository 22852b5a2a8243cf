"""A plane that is played by the program and by the lab's own machine side by side, which knows the failed events."""
from collections.abc import Sequence
from pathlib import Path

from ..base.program import Program
from ..formats.report import JournalRecord
from ..formats.world import World
from ..machine.code import ElementCode
from ..machine.maker import EventMaker
from ..machine.windows import Disagreement
from .replays import Plane


class FailurePlane(Plane):
    """A plane that notes at which sites events failed. Raises Disagreement if the two come to different atoms."""

    is_whole = True

    def __init__(self, program: Program, files: Sequence[Path], room: Path, world: World, codes: Sequence[ElementCode]) -> None:
        super().__init__(program, files, room)
        self.maker = EventMaker(world, codes)

    def begin(self, world: World) -> dict[int, str]:
        """Makes the plane that of the beginning of a world; gives back what changed."""
        self.maker.begin(atom.text() for atom in world.atoms)
        return super().begin(world)

    def play(self, records: Sequence[str]) -> dict[int, str]:
        """Makes the next events, which are lines of a journal; gives back what changed, and notes those that failed."""
        cells = self.maker.cells
        before: dict[int, int] = {}  # the cells that the events wrote, with what they were
        for record in map(JournalRecord.of, records):
            made = self.maker.make(0, record)
            if made is not None:
                for cell, atom in self.maker.machine.event.before.items():
                    before.setdefault(cell, atom)
                if made.ending.cause:
                    self.failed[made.window.cells[0]] += 1
        changes = super().play(records)
        ours = {cell: self.maker.text(cells[cell]) if cells[cell] else ""
                for cell, atom in before.items() if atom != cells[cell]}
        if ours != changes:
            raise Disagreement("the lab comes to other atoms than the program's replay, in the events from "
                               f"that with the stamp {records[0].partition(' ')[0]} on")
        return changes
