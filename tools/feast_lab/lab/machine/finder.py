"""The events of a leg that failed, found while its report is at hand."""
from collections import Counter
from collections.abc import Sequence
from pathlib import Path

from ..base.program import Program
from ..formats.outcome import Outcome, atom_lines, journal_lines
from ..formats.report import JournalRecord
from ..formats.world import World
from .code import element_codes
from .maker import EventMaker
from .windows import Disagreement


class Finder:
    """Makes the events of legs again, in Python, and finds those that failed."""

    def __init__(self, program: Program, files: Sequence[Path], world: World) -> None:
        self.maker = EventMaker(world, element_codes(program, files))

    def failed(self, atoms: Sequence[str], report: bytes) -> Counter[int]:
        """How many events of a leg that began with these atoms failed at each site, of the sites row by row.

        Raises Disagreement if the lab comes to other atoms than the report.
        """
        self.maker.begin(atoms)
        found: Counter[int] = Counter()
        for line in journal_lines(report):
            made = self.maker.make(0, JournalRecord.of(line))
            if made is not None and made.ending.cause:
                found[made.window.cells[0]] += 1
        if self.maker.lines() != atom_lines(Outcome.of(report).atoms):
            raise Disagreement("the lab comes to other atoms than the program, so it can't tell which events of the leg failed")
        return found
