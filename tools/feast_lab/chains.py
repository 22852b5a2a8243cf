"""Chains, as `./lab chain` makes them."""
from collections.abc import Callable, Iterator, Sequence
from pathlib import Path
from tempfile import TemporaryDirectory
from typing import Any

import numpy

from .lab.base.errors import LabError
from .lab.base.files import read_comments, write_new
from .lab.base.progress import ProgressLine
from .lab.chain.audit import first_fault, processors
from .lab.chain.course import Course
from .lab.chain.folder import Folder
from .lab.chain.kept_legs import KeptLegs
from .lab.film.recording import Recording, recording_of_chain
from .lab.formats.layout import Layout
from .lab.formats.outcome import atom_lines
from .lab.measure.measures import Measure, measures_of

from . import arrays, datasets, recordings
from .arrays import Array
from .closing import Closing
from .films import Film
from .measured import Measure as Measured, said, with_columns
from .moments import Moment
from .programs import found
from .runs import Run


class Chain(Closing):
    """The chain of a folder, as far as it is made. Closed, its folder is gone if it has none of its own."""

    def __init__(self, folder: str | Path, *, program: str | Path | None = None, room: TemporaryDirectory[str] | None = None) -> None:
        """The chain that was begun in a folder. `room` is what the folder lies in if it goes away with this object."""
        super().__init__(room)
        self._folder = Folder(Path(folder))
        self.begun = self.folder.begun()
        self.program = found(program)
        self.layout = Layout.of(self.program, self.folder.files)
        self.texts = [(file, read_comments(file)) for file in self.folder.files]

    @property
    def folder(self) -> Folder:
        """Its folder."""
        self.refuse_gone("the chain")
        return self._folder

    @property
    def recording(self) -> Recording:
        """Its legs, as a film takes them."""
        return recording_of_chain(self.program, self.folder.path, [])

    def __repr__(self) -> str:
        if self.is_gone:
            return "<Chain, closed>"
        return f"<Chain of {len(self)} legs>" if self.is_passing else f"<Chain {self.folder.path}: {len(self)} legs>"

    def __len__(self) -> int:
        return self.folder.done()

    @property
    def course(self) -> Array:
        """The rows of `course.csv`: a masked array with leg, attempts, events, abandoned, aeps, the elements and what is measured.

        If the chain looks for failed events, `failed` stands before aeps, and if it looks for the drift, `drift` behind it.
        A measure that a leg has no number for is masked.
        """
        return course_of(self._course(), self.layout)

    def _course(self) -> Course:
        """The legs that are done."""
        return self.folder.course(len(self), self.layout.elements, self.folder.world.sites)

    def to_pandas(self) -> Any:
        """The course as a frame of pandas."""
        return arrays.frame(self.course, self.recording.measures)

    def plane(self, leg: int) -> Moment:
        """The plane at the end of a leg, counted from 1; that of 0 is the start."""
        course = self._course()
        if not 0 <= leg < len(course.legs):
            raise LabError(f"plane({leg}): the chain has the legs 0 to {len(course.legs) - 1}")
        events = course.upto(leg).events
        return self.moment(leg, events, self.folder.atoms(leg, self.begun))

    def moment(self, leg: int, events: int, atoms: str) -> Moment:
        """The plane with these atoms, as `replay` writes them."""
        title = f"leg {leg} of {self.folder.path.name}"
        return Moment.of(title, self.folder.world, self.layout, self.texts, events, atom_lines(atoms))

    def planes(self) -> Iterator[Moment]:
        """The plane at the start, and at the end of each leg."""
        if self.begun.every > 1:
            raise LabError(f"{self.folder.path}: the chain keeps the atoms of every {self.begun.every}th leg alone")
        course = self._course()
        yield self.moment(0, 0, self.folder.atoms(0, self.begun))
        events = 0
        for leg, report in self.folder.packed(self.begun).all():
            events += course.legs[leg].events
            yield self.moment(leg, events, report.atoms)

    def measure(self, of: Callable[[Moment], Any]) -> Array:
        """What a function says of the plane at the end of each leg, from the start on: a row of an array for each."""
        return numpy.array([of(plane) for plane in self.planes()])

    def measured(self, **measures: Measured) -> Array:
        """The course with a further column for each function: what it says of the plane at the end of each leg."""
        return with_columns(self.course, said(measures, self.planes()))

    def to_xarray(self, every: int | None = None, members: Sequence[str] | None = None) -> Any:
        """The planes at the start and at the ends of legs, or those that `frames(every)` gives, as a dataset of xarray; see
        `Run.to_xarray`."""
        if every is None:
            return datasets.dataset(self.planes(), members, range(len(self) + 1))
        return datasets.dataset(self.frames(every), members)

    def _repr_svg_(self) -> str | None:
        return self.plane(len(self))._repr_svg_()

    def _repr_png_(self) -> bytes | None:
        return self.plane(len(self))._repr_png_()

    def frames(self, every: int) -> Iterator[Moment]:
        """The plane at the start, after every so many events of all legs, and at the end."""
        return recordings.planes(self.program, self.recording, every, self.texts)

    def leg(self, number: int) -> Run:
        """The run of a leg, counted from 1, if the chain keeps reports."""
        if self.begun.keep != "reports":
            raise LabError(f"{self.folder.path}: the chain keeps no reports")
        if not 1 <= number <= len(self):
            raise LabError(f"leg({number}): the chain has the legs 1 to {len(self)}")
        legs, room = KeptLegs.of(self.folder, self.program), TemporaryDirectory[str]()
        world = Path(room.name) / f"{number:04}.world"
        write_new(world, legs.world_text(number))
        return Run(self.program, world, [file.resolve() for file in self.folder.files], legs.whole(number), room)

    def counts(self, every: int) -> Array:
        """How many atoms each element had after every so many events of all legs; see `Run.counts`."""
        return recordings.counts(self.program, self.recording, every)

    def audit(self) -> str:
        """`yes`, or `no` with the first leg at fault, as `./lab chain --audit` says."""
        fault = first_fault(self.folder, None, ProgressLine(), processors(), self.program)
        return "yes" if fault is None else f"no {fault}"

    def film(self, frames: int = 400) -> Film:
        """The film of the chain."""
        return recordings.film(self.program, self.recording, frames)


def course_of(course: Course, layout: Layout) -> Array:
    """The legs of a course as an array."""
    rows: list[arrays.Row] = []
    events = 0
    for leg in course.legs:
        events += leg.events
        own: arrays.Row = {"leg": leg.number, "attempts": leg.attempts, "events": leg.events, "abandoned": leg.abandoned}
        own |= {"aeps": events / course.sites, "failed": leg.failed, "drift": float(leg.drift or 0)}
        own |= dict(zip(course.elements, leg.counts, strict=True))
        rows.append(own | {name: number_of(text) for name, text in zip(course.measures, leg.measured, strict=True)})
    kinds = dict.fromkeys(course.head, "i8") | {"aeps": "f8"} | ({"drift": "f8"} if course.has_drift else {})
    kinds |= {measure.name: kind_of(measure, course.sites) for measure in measures_of(course.measures, layout)}
    return arrays.columns(rows, kinds)


def number_of(text: str) -> int | float | None:
    """What a cell of a measure has: a whole number, a mean, or nothing."""
    if not text:
        return None
    return float(text) if "." in text else int(text)


def kind_of(measure: Measure, sites: int) -> str:
    """NumPy's kind of the column of a measure on a plane of so many sites."""
    if measure.kind == "mean":
        return "f8"
    most = sites if measure.kind == "sum" else 1
    return arrays.kind_of(measure.leaf.least * most, measure.leaf.greatest * most) if measure.leaf is not None else "i8"
