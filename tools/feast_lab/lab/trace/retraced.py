"""The events of a run or a chain, made again one after another, each tried against the program's own."""
from collections.abc import Callable, Iterator
from pathlib import Path

from ..base.program import Program
from ..base.progress import Progress
from ..film.chain_legs import KeptLeg
from ..film.frames import Reported
from ..film.recording import Recording
from ..film.replays import Plane
from ..formats.report import JournalRecord
from ..machine.code import element_codes
from ..machine.maker import MadeEvent, EventMaker
from ..machine.windows import Disagreement, WindowCheck

PROGRESS_EVERY = 1000


class Retraced:
    """Makes the events of a run or a chain again.

    `maker` has the plane after the event in hand. Each event is made by the program too, from the window that it began
    with, and the plane at the end of each leg has to be the one of its report: else Disagreement is raised.
    """

    def __init__(self, program: Program, recording: Recording, room: Path, progress: Progress) -> None:
        self.program, self.recording, self.room, self.progress = program, recording, room, progress
        self.legs = recording.reported()
        self.codes = element_codes(program, recording.files)
        self.maker = EventMaker(recording.world, self.codes)
        self.check = WindowCheck(program, recording.files, room, self.maker)

    def events(self, since: int = 0, is_noted: Callable[[JournalRecord], bool] = lambda record: False) -> Iterator[MadeEvent]:
        """The events after so many whose centre isn't empty, in their order; the others change nothing.

        What an event does is noted where that is asked for.
        """
        self.progress.begin(self.recording.ends[-1], since)
        for leg, begin in zip(self.legs, self.recording.ends, strict=False):
            if since < begin + leg.events or since == begin == 0:
                for number, record in self.leg(leg, begin, max(since - begin, 0)):
                    made = self.maker.make(number, record, is_noted(record))
                    if made is not None:
                        self.check.add(made)
                        yield made
                    if number % PROGRESS_EVERY == 0:
                        self.progress.at(number, f"event {number:,}")
        self.progress.end()

    def leg(self, leg: Reported | KeptLeg, begin: int, since: int) -> Iterator[tuple[int, JournalRecord]]:
        """The events of a leg after so many, with their numbers in the run; they are made on the plane one by one."""
        report = leg.checked(self.program, self.recording.files, self.room)
        self.maker.begin(self.atoms(leg, since))
        for at, line in enumerate(report.journal.lines[since:], since + 1):
            yield begin + at, JournalRecord.of(line)
        self.check.end()
        if self.maker.lines() != [atom.text() for atom in report.atoms]:
            raise Disagreement(f"{leg.name}: the lab comes to other atoms than the program's replay")

    def atoms(self, leg: Reported | KeptLeg, events: int) -> list[str]:
        """The atoms after so many events of a leg, as lines of a report."""
        return leg.atoms_after(Plane(self.program, self.recording.files, self.room), events)

    def event(self, number: int) -> tuple[JournalRecord, MadeEvent | None]:
        """One event alone, with what it does, between the planes that `rewind` has before it and after it."""
        leg, upto = self.recording.leg_at(number)
        assert isinstance(leg, Reported | KeptLeg)
        record = leg.checked(self.program, self.recording.files, self.room).journal[upto - 1]
        self.maker.begin(self.atoms(leg, upto - 1))
        made = self.maker.make(number, record, True)
        if self.maker.lines() != self.atoms(leg, upto):
            raise Disagreement(f"event {number} at {record.x} {record.y}: the plane that the lab comes to is not the one "
                               "of the program's replay")
        return record, made
