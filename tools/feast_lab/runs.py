"""Runs: made here, or read from a report."""
from collections.abc import Iterator, Mapping, Sequence
from dataclasses import replace
from functools import cached_property
from pathlib import Path
from tempfile import TemporaryDirectory
from typing import Any

from .lab.base.errors import LabError
from .lab.base.files import read_byte_text, read_comments, write_new, write_whole
from .lab.base.limits import MOST_ATTEMPTS
from .lab.base.program import Program
from .lab.base.seeds import MODULUS
from .lab.chain.acts import Acts
from .lab.chain.rule import ChainRule
from .lab.film.frames import Reported
from .lab.film.recording import Recording
from .lab.formats.constants import constants, with_values
from .lab.formats.layout import Layout
from .lab.formats.outcome import ABANDONED, JOURNAL, Outcome, atom_lines
from .lab.formats.report import ReportReader, read_report
from .lab.formats.world import World
from .lab.measure.drift import greatest, plans, tiles_of
from .lab.worlds.starting import drawn_world

from . import arrays, datasets, recordings
from .arrays import Array
from .closing import Closing
from .films import Film
from .moments import Moment
from .programs import Paths, files_of, found
from .waiting import Hearer, called
from .worlds import World as OwnWorld


class Run(Closing):
    """A run of a world with element files: its events, its abandoned attempts, and its atoms at any moment.

    Closed, it has no temporary files any more, and what the program has to be called for is over. What it has given stays
    good.
    """

    def __init__(self, program: Program, world: Path, files: Sequence[Path], report: bytes, room: TemporaryDirectory[str]) -> None:
        """The run of a report; `room` is the folder of copies, which goes away with the run."""
        super().__init__(room)
        self.program = program
        self.path = world
        self.files = list(files)
        self.bytes = report
        self._copies = Path(room.name)
        self.world = World.read(world)
        self.layout = Layout.of(program, self.files)
        self.texts = [(file, read_comments(file)) for file in self.files]
        self.outcome = Outcome.of(report)

    def __repr__(self) -> str:
        told = self.outcome
        return f"<Run of {self.path.name}: {told.events:,} events, {told.abandoned:,} abandoned, {len(atom_lines(told.atoms)):,} atoms>"

    def part(self, head: bytes, until: int | None = None) -> bytes:
        """The lines of the report behind the line that counts them."""
        first = self.bytes.index(b"\n", self.bytes.rindex(head) + 1) + 1
        return self.bytes[first:until]

    @cached_property
    def events(self) -> Array:
        """The events: an array with the fields stamp, tile, attempt, x, y and seed."""
        return arrays.events(self.part(JOURNAL, self.bytes.rindex(ABANDONED) + 1))

    @cached_property
    def abandoned(self) -> Array:
        """The abandoned attempts: an array with tile, attempt, x, y, edge, holder and holder_attempt."""
        return arrays.abandoned(self.part(ABANDONED))

    @property
    def atoms(self) -> Array:
        """The atoms at the end: a masked array with x, y, element, state and the members."""
        return self.end.atoms

    @cached_property
    def drift(self) -> float:
        """How far the tiles were apart at the worst moment, as a part of their events; see `./lab rates`."""
        journal = self.part(JOURNAL, self.bytes.rindex(ABANDONED) + 1).decode().splitlines()
        return greatest(plans(self.world), tiles_of(journal))

    def to_pandas(self, name: str = "events") -> Any:
        """`events`, `abandoned` or `atoms` as a frame of pandas."""
        if name not in ("events", "abandoned", "atoms"):
            raise LabError(f"a run has no {name}; it has events, abandoned and atoms")
        return self.end.to_pandas() if name == "atoms" else arrays.frame(getattr(self, name))

    def to_xarray(self, every: int, members: Sequence[str] | None = None) -> Any:
        """The plane at the start, after every so many events and at the end, as a dataset of xarray with the dimensions time
        (in events), y and x: `element`, the number of the element of each site, and `Element.member` for each member, or for
        those of `members`; NaN where there is no such atom."""
        return datasets.dataset(self.frames(every), members)

    @property
    def end(self) -> Moment:
        """The plane at the end, which a notebook shows for the run."""
        return self.at(self.outcome.events)

    def _repr_svg_(self) -> str | None:
        return self.end._repr_svg_()

    def _repr_png_(self) -> bytes | None:
        return self.end._repr_png_()

    def at(self, events: int) -> Moment:
        """The plane after so many events."""
        last = self.outcome.events
        if not 0 <= events <= last:
            raise LabError(f"at({events}): there are {last} events")
        if events == last:
            lines = atom_lines(self.outcome.atoms)
        else:
            words: list[str | Path] = ["rewind", self.path, self._report(), str(events), *self.files]
            lines = self.program.call(words).text.splitlines()[2:]
        return Moment.of(self.path.name, self.world, self.layout, self.texts, events, lines)

    def grid(self, name: str) -> Array:
        """The values of a member `Element.member` at the end, by row and column."""
        return self.end.grid(name)

    def counts(self, every: int) -> Array:
        """How many atoms each element had after every so many events; a row has events, abandoned, aeps and the elements."""
        return recordings.counts(self.program, self._recording(), every)

    def frames(self, every: int) -> Iterator[Moment]:
        """The plane at the start, after every so many events, and at the end."""
        return recordings.planes(self.program, self._recording(), every, self.texts)

    def audit(self) -> str:
        """What the program's audit says of the report: `yes`, or `no` and why."""
        return self.program.call(["audit", self.path, self._report(), *self.files]).text.strip()

    def film(self, frames: int = 400) -> Film:
        """The film of the run."""
        return recordings.film(self.program, self._recording(), frames)

    def save(self, path: str | Path) -> None:
        """Writes the report to a file, whole or not at all."""
        write_whole(Path(path), self.bytes)

    def _report(self) -> Path:
        """The report as a file of the run's own folder."""
        if self.is_closed:
            raise LabError(f"the run of {self.path.name} is closed; only what it had at its end is still there")
        path = self._copies / "report"
        if not path.exists():
            write_new(path, self.bytes)
        return path

    def _recording(self) -> Recording:
        """What films are made of."""
        leg = Reported(self.path, self.outcome.events, self._report())
        return Recording(self.path.name, self.world, self.layout, self.files, [leg])


def run(world: str | Path | OwnWorld, elements: Paths | None = None, *, step: bool = False, seed: int | None = None,
        attempts: int | None = None, set: Mapping[str, object] | None = None, program: str | Path | None = None,
        timeout: float | None = None, progress: Hearer = False) -> Run:
    """Makes a run.

    `world` is a `World`, a file, or the text of one, which has several lines; `elements` is a file or several, and a
    `World` knows its own. With `step` the run is made on one thread, in the order that the world says. With `seed` it is
    the run that the first leg of `./lab chain --seed` makes: the attempts are drawn from that seed, and the order of a
    stepped run from the seed plus the number of tiles. `attempts` are those of each tile, in place of the world's.
    `set` gives constants, `Element.constant`, other values. `program` is the built program; without it the one that
    `./lab` would call. A run that takes more than `timeout` seconds is ended, with a LabError. With `progress` a line on
    standard error says for how long it has run; a function is told 0, or 1 at the end, and the name of the world.
    """
    caller, files = found(program), elements_of(world, elements)
    room: TemporaryDirectory[str] = TemporaryDirectory()
    path = world_file(world, Path(room.name))
    if seed is not None or attempts is not None:
        path = seeded(path, seed, attempts, step, Path(room.name))
    if set:
        files = with_constants(files, set, Path(room.name))
    report = called(caller, ["step" if step else "run", path, *files], path.name, timeout, progress)
    return Run(caller, path, files, report, room)


def read(world: str | Path, report: str | Path, elements: Paths, *, program: str | Path | None = None) -> Run:
    """The run of a report, which may be packed by gzip; its form is tested."""
    data = read_report(Path(report))
    try:
        reader = ReportReader(Path(report), data.decode("ascii").split("\n"))
    except UnicodeDecodeError as error:
        raise LabError(f"{report}: byte {error.start + 1} is no part of a report") from error
    reader.report(reader.atoms())
    reader.end()
    caller, files = found(program), files_of(elements)
    return Run(caller, Path(world).resolve(), files, data, TemporaryDirectory())


def elements_of(world: str | Path | OwnWorld, elements: Paths | None) -> list[Path]:
    """The element files of a run: those that are named, or else those of a world that knows its own."""
    if elements is not None:
        return files_of(elements)
    if isinstance(world, OwnWorld):
        return world.files
    raise LabError("elements: at least one file has to be named")


def seeded(world: Path, seed: int | None, attempts: int | None, step: bool, room: Path) -> Path:
    """A copy of a world, under the same name, that draws its attempts from another seed, as a leg of a chain has it, or makes
    another number of them."""
    was = drawn_world(world)
    if seed is not None and not 0 <= seed < MODULUS:
        raise LabError(f"seed={seed}: a seed is from 0 to {MODULUS - 1}")
    if attempts is not None:
        most = MOST_ATTEMPTS // max(was.tiles - len(was.off), 1)
        if not 0 <= attempts <= most:
            raise LabError(f"attempts={attempts}: each tile may make from 0 to {most}; a chain makes more")
        was = replace(was, attempts=int(attempts))
    path = room / "seeded" / world.name
    path.parent.mkdir()
    write_new(path, was.text() if seed is None else ChainRule(was, int(seed), step, Acts()).world_text(1, [atom.text() for atom in was.atoms]))
    return path


def world_file(world: str | Path | OwnWorld, room: Path) -> Path:
    """The file of a world, which may be given as its text."""
    text = world.text if isinstance(world, OwnWorld) else world
    if isinstance(text, str) and "\n" in text:
        path = room / "world"
        write_new(path, text)
        return path
    return Path(text).resolve()


def with_constants(files: Sequence[Path], values: Mapping[str, object], room: Path) -> list[Path]:
    """Copies of element files in which constants have other values."""
    texts = [read_byte_text(file) for file in files]
    known = [constant.name for text in texts for constant in constants(text)]
    for name in values:
        if name not in known:
            raise LabError(f"set: the files have no constant {name}; they have {', '.join(known) or 'none'}")
    told = {name: str(value).lower() if isinstance(value, bool) else str(value) for name, value in values.items()}
    copies = []
    for number, (file, text) in enumerate(zip(files, texts, strict=True)):
        copies.append(room / f"{number:02}-{file.name}")
        copies[-1].write_text(with_values(text, told), encoding="latin-1", newline="")
    return copies
