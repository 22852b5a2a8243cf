"""How the legs of a chain are made: by the program, many in one call, each measured as it comes."""
import tempfile
from collections import Counter
from collections.abc import Generator, Iterator, Sequence
from dataclasses import dataclass
from pathlib import Path

from ..base.errors import LabError
from ..base.files import write_new
from ..base.program import Program
from ..formats.leg_report import CutShort, LegReader, LegReport
from ..formats.layout import Layout
from ..formats.outcome import atom_lines, counts
from ..machine.finder import Finder
from ..formats.whole import whole_report
from ..measure.measures import Measure, measured
from .course import Leg
from .folder import Begun, Folder
from .rule import NONE, SHORT, ChainRule, pieces

NO_EVENTS = "feast 2\natoms 0\njournal 0\nabandoned 0\n"  # the report of a leg that makes no attempt, but for its atoms


@dataclass(frozen=True)
class LegMaker:
    """Makes the legs of a chain, and measures what they leave. With a finder it looks for events that failed, with `has_drift`
    for how far the tiles were apart."""

    program: Program
    folder: Folder
    begun: Begun
    rule: ChainRule
    layout: Layout
    measures: Sequence[Measure] = ()
    finder: Finder | None = None
    has_drift: bool = False

    @property
    def journal(self) -> str:
        """What is asked for of the events of legs."""
        return SHORT if self.begun.keeps_reports or self.finder is not None or self.has_drift else NONE

    def made(self, first: int, last: int, atoms: Sequence[str]) -> Iterator[tuple[int, LegReport]]:
        """The legs from the first to the last, each with its number, as soon as it is made. `atoms` are the lines of those that
        the leg before left."""
        for begin, end in pieces(first, last):
            report = None
            for number, report in self.called(begin, end, atoms):
                yield number, report
            if report is not None and end < last:
                atoms = atom_lines(report.atoms)

    def called(self, first: int, last: int, atoms: Sequence[str], attempts: int | None = None) -> Generator[tuple[int, LegReport], None, None]:
        """The legs from the first to the last, by one call of the program. Each tile makes as many attempts as the world says,
        or so many, if no act says otherwise."""
        with tempfile.TemporaryDirectory(prefix="feast-chain-") as room:
            chain = Path(room) / "chain"
            write_new(chain, self.rule.text(first, last - first + 1, self.journal, atoms, None, attempts))
            with self.program.stream(["step" if self.begun.step else "run", chain, *self.folder.files]) as stream:
                reader, number = LegReader(stream.read), first - 1
                try:
                    for number, report in enumerate(reader.legs(), first):
                        yield number, report
                except (CutShort, ValueError):
                    reader.take_rest()
                stream.end(bytes(reader.held))
                if number != last:
                    raise LabError(f"{self.program.path}: it wrote what is no report of leg {number + 1}, and ended with status 0")

    def before(self, number: int, atoms: Sequence[str]) -> Sequence[str]:
        """The lines of the atoms with which a leg begins, from those that the leg before left."""
        if not self.rule.acts.before(number):
            return atoms
        with tempfile.TemporaryDirectory(prefix="feast-chain-") as room:
            chain, report = Path(room) / "chain", Path(room) / "report"
            write_new(chain, self.rule.before(number, atoms))
            write_new(report, NO_EVENTS)
            return atom_lines(self.program.call(["replay", chain, report, *self.folder.files]).text)

    def failed(self, number: int, before: Sequence[str], report: LegReport) -> Counter[int] | None:
        """How many events of a leg failed at each site, if that is looked for. `before` are the atoms that the leg before left."""
        if self.finder is None:
            return None
        begun = self.before(number, before)
        return self.finder.failed(begun, whole_report(report, self.rule.world_of(number)))

    def row(self, number: int, report: LegReport, failed: Counter[int] | None = None) -> Leg:
        """The row of a leg in the course."""
        atoms = report.atoms
        return Leg(number, self.rule.attempts(number), report.events, report.lost, counts(atoms, self.layout.elements),
                   measured(self.measures, atoms), None if failed is None else failed.total(),
                   self.rule.drift(number, report) if self.has_drift else None)
