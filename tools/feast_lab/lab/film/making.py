"""What is made of the frames of a recording: a page, a table, a moving picture, or the plane at a moment."""
import sys
from collections.abc import Iterator, Mapping, Sequence
from dataclasses import dataclass
from pathlib import Path

from ..base.errors import LabError
from ..base.program import Program
from ..base.progress import Progress
from ..formats.layout import Leaf
from ..machine.code import element_codes
from ..measure.drift import MIXED, LegDrift, tiles_of, warning
from ..pictures.figure import plane_figure
from ..pictures.marks import marks
from ..pictures.tints import tinted, tints
from .batches import side_by_side
from .curves import Curves
from .data import Packer
from .failure_plane import FailurePlane
from .frames import Frame, Reported
from .movie import movie
from .page import page
from .recording import Recording
from .replays import Plane
from .table import Table

FRAMES = 400
MOST_FRAMES = 10_000  # each is a call of the program: on a small plane some two milliseconds of processor time, on the largest thirty


def refuse_frames(said: str, count: int) -> None:
    """Refuses numbers of frames that no film has."""
    if count < 1:
        raise LabError(f"{said}: a film has at least one frame behind the first")
    if count > MOST_FRAMES:
        raise LabError(f"{said}: a film has at most {MOST_FRAMES:,} frames behind the first, and that many take minutes")


@dataclass(frozen=True)
class WantedFilm:
    """What is to be seen: how many frames behind the first, the members by which atoms are coloured, as --color names them,
    the measures, and whether failed events are found."""

    frames: int = FRAMES
    color: Sequence[str] = ()
    measures: Sequence[str] = ()
    failures: bool = False


@dataclass(frozen=True)
class Filming:
    """A recording whose frames are made, on a plane that lies in a folder."""

    recording: Recording
    wanted: WantedFilm
    plane: Plane
    curves: Curves
    leaves: Mapping[str, Leaf]
    progress: Progress

    @staticmethod
    def of(program: Program, recording: Recording, wanted: WantedFilm, room: Path, progress: Progress) -> "Filming":
        """Refuses members that no element has, and failures of a chain that keeps no reports."""
        curves = Curves(wanted.measures or recording.measures, recording.layout)
        leaves = tinted(wanted.color, recording.layout, recording.files)
        if not wanted.failures:
            return Filming(recording, wanted, Plane(program, recording.files, room), curves, leaves, progress)
        recording.reported()
        plane = FailurePlane(program, recording.files, room, recording.world, element_codes(program, recording.files))
        return Filming(recording, wanted, plane, curves, leaves, progress)

    def frames(self) -> Iterator[Frame]:
        """The frames."""
        self.progress.begin(self.recording.ends[-1])
        for frame in side_by_side(self.plane, self.recording.legs, self.recording.moments(self.wanted.frames)):
            yield frame
            self.progress.at(frame.events, f"after {frame.events:,} events")
        self.progress.end()

    def table(self) -> Table:
        """A table, of no frame yet."""
        return Table(self.recording, self.curves, self.wanted.failures)

    def page(self, beside: Table | None = None) -> str:
        """The film as a page; a table that is to be beside it gets the same frames."""
        recording, films = self.recording, self.curves.watched(self.frames())
        packer, drifts = Packer(recording.layout.elements, self.wanted.failures), list[LegDrift]()
        marked = marks(recording.layout.elements, recording.files)
        for frame in films if beside is None else beside.noting(films):
            packer.add(frame)
            drifts += frame.drifts
        more = {"measures": self.curves.head(), "colorBy": [tint.head() for tint in tints(self.leaves, packer.atoms).values()]}
        return page(recording.title, recording.world, recording.layout, marked, packer, recording.act_moments,
                    drift_of(recording, drifts), more)

    def counts(self) -> str:
        """The counts of the elements in each frame, as CSV."""
        table, drifts = self.table(), list[LegDrift]()
        for frame in table.noting(self.curves.watched(self.frames())):
            drifts += frame.drifts
        drift_of(self.recording, drifts)
        return table.text()

    def movie(self, seconds: float) -> str:
        """The film as one SVG that moves by itself, and takes so long."""
        recording = self.recording
        return movie(recording.world, recording.title, self.frames(), marks(recording.layout.elements, recording.files), seconds)

    def figure(self, moment: int) -> str:
        """The plane after so many events, as SVG."""
        recording = self.recording
        if not 0 <= moment <= recording.ends[-1]:
            raise LabError(f"--svg {moment}: there are {recording.ends[-1]} events")
        leg, events = recording.leg_at(moment)
        atoms = leg.atoms_after(self.plane, events)
        if isinstance(leg, Reported) and leg.known is not None and 0 < events < leg.events:
            drift_of(recording, [LegDrift.of(leg.planned(), tiles_of(leg.known.journal.lines))])
        caption = f"{recording.title} after {moment:,} of {recording.ends[-1]:,} events"
        scales = tints(self.leaves, (line.split(" ", 2)[2] for line in atoms))
        return plane_figure(recording.world, atoms, marks(recording.layout.elements, recording.files), caption, scales)


def drift_of(recording: Recording, legs: Sequence[LegDrift]) -> float:
    """The drift of the whole run, from those of its legs, if they are known; warns if its moments mix ages."""
    drift = max(LegDrift.together(legs), default=0.0)
    if drift > MIXED:
        print(f"lab: warning: {recording.title}: {warning(drift)}", file=sys.stderr)
    return drift
