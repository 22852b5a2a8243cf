"""A chain that is wanted, made leg by leg."""
from collections.abc import Sequence
from dataclasses import dataclass, field
from pathlib import Path

from ..base.errors import LabError
from ..base.limits import LAST_LEG
from ..base.program import Program
from ..base.progress import Progress, Stop
from ..formats.layout import Layout
from ..formats.outcome import atom_lines
from ..measure.measures import measures_of
from ..measure.until import Ends, LegEnd, OfChain, ends
from .columns import with_drift, with_failures, with_measures
from .course import Course
from .folder import Folder
from .keeper import Keeper
from .legs import LegMaker
from .start import Options, Start


@dataclass(frozen=True)
class WantedChain:
    """What a chain is to be: its folder, what it begins with, and how many legs it has in all.

    `until` is the rule of --until or says otherwise when it is over, and `measures` are columns of the course. With `failures`
    the course has a column of the events that failed, with `drift` one of how far the tiles were apart.
    """

    folder: Path
    world: Path
    files: Sequence[Path]
    legs: int
    options: Options = field(default_factory=Options)
    until: str | OfChain | None = None
    measures: Sequence[str] = ()
    failures: bool = False
    drift: bool = False


def made(wanted: WantedChain, progress: Progress, stop: Stop, is_lasting: bool) -> Course:
    """Begins a chain, or goes on with it, until it has its legs; gives back its course. If it is lasting, what a leg needs
    has come down to the disk before the leg counts as done."""
    if not 1 <= wanted.legs <= LAST_LEG:
        raise LabError(f"--legs {wanted.legs}: a chain has at least one leg, and at most {LAST_LEG:,}")
    program, folder = Program.find(), Folder(wanted.folder, is_lasting)
    start = Start.of(program, wanted.world, wanted.files, wanted.options)
    layout = Layout.of(program, wanted.files)
    measures_of(wanted.measures, layout)
    until = ends(wanted.until, folder.path, layout) if wanted.until is not None else None
    folder.make()
    with folder.held():
        maker, course = start.opened(folder)
        maker = with_measures(maker, course, wanted.measures)
        if wanted.failures:
            maker = with_failures(maker, course, progress)
        if wanted.drift:
            maker = with_drift(maker, course, progress)
        go(maker, course, wanted.legs, until, progress, stop)
    return course


def go(maker: LegMaker, course: Course, legs: int, until: Ends | None, progress: Progress, stop: Stop) -> None:
    """Makes the legs that are still to be made, or those up to the first at whose end it is over."""
    done = len(course.legs) - 1
    atoms = maker.folder.atoms(done, maker.begun)
    if done >= legs or (until is not None and until(LegEnd(atoms, course.events, course.sites, done))):
        return
    progress.begin(legs, done)
    with Keeper(maker.folder, maker.begun, course) as keeper:
        before = atom_lines(atoms)
        for number, report in maker.made(done + 1, legs, before):
            failed = maker.failed(number, before, report)
            keeper.keep(maker.row(number, report, failed), report)
            if until is not None and until(LegEnd(report.atoms, course.events, course.sites, number)):
                break
            stop.heed()
            progress.at(number, f"leg {number} of {legs}")
            before = atom_lines(report.atoms) if maker.finder is not None else before
    progress.end()
