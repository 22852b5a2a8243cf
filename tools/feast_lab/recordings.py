"""What runs and chains have in common: counts over the events, and films."""
from collections import Counter
from collections.abc import Iterator, Sequence
from pathlib import Path
from tempfile import TemporaryDirectory

from .lab.base.errors import LabError
from .lab.base.program import Program
from .lab.base.progress import Progress
from .lab.film.batches import side_by_side
from .lab.film.frames import Frame
from .lab.film.making import Filming, WantedFilm, refuse_frames
from .lab.film.recording import Recording
from .lab.film.replays import Plane

from . import arrays
from .arrays import Array
from .cells import Cells
from .films import Film
from .moments import Moment


def played(program: Program, recording: Recording, moments: set[int]) -> Iterator[Frame]:
    """The frames of some moments, counted in events."""
    with TemporaryDirectory() as room:
        yield from side_by_side(Plane(program, recording.files, Path(room)), recording.legs, moments)


def moments(recording: Recording, every: int) -> set[int]:
    """The start, every so many events, and the end. Refuses a chain whose events aren't known."""
    if every < 1:
        raise LabError(f"every={every}: the distance is at least one event")
    recording.reported()
    last = recording.ends[-1]
    return {*range(0, last, every), last}


def planes(program: Program, recording: Recording, every: int, texts: Sequence[tuple[Path, str]]) -> Iterator[Moment]:
    """The plane at the start, after every so many events, and at the end."""
    world, layout = recording.world, recording.layout
    numbers = {name: at for at, name in enumerate(layout.elements, 1)}
    cells = Cells.empty(world.rows, world.columns)
    wanted = moments(recording, every)
    for frame in played(program, recording, wanted):
        cells.put(frame.changes, numbers)
        if frame.events in wanted:
            yield Moment(recording.title, world, layout, texts, frame.events, cells.copy())


def counts(program: Program, recording: Recording, every: int) -> Array:
    """The atoms of each element at the start and after every so many events, and at the end, as an array.

    A row has `events`, `abandoned` and `aeps` so far, and a number for each element.
    """
    if every < 1:
        raise LabError(f"counts(every={every}): the distance is at least one event")
    last, elements = recording.ends[-1], recording.layout.elements
    now: Counter[str] = Counter()
    cells: dict[int, str] = {}
    rows, abandoned = [], 0
    for frame in played(program, recording, {*range(0, last, every), last}):
        now.subtract(cells.get(site, "").partition(" ")[0] for site in frame.changes)
        now.update(atom.partition(" ")[0] for atom in frame.changes.values())
        cells |= frame.changes
        abandoned += frame.abandoned
        rows.append({"events": frame.events, "abandoned": abandoned, "aeps": frame.events / recording.world.sites,
                     **{element: now[element] for element in elements}})
    kinds = {"events": "i8", "abandoned": "i8", "aeps": "f8"}
    return arrays.table(rows, kinds | dict.fromkeys(elements, "i8"))


def film(program: Program, recording: Recording, count: int) -> Film:
    """The film of so many frames behind the first."""
    refuse_frames(f"film({count})", count)
    with TemporaryDirectory() as room:
        filming = Filming.of(program, recording, WantedFilm(count), Path(room), Progress())
        return Film(filming.page(), recording.title)
