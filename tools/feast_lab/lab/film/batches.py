"""The frames of a long chain, made side by side: each process plays some legs that follow one another.

The report of the leg before has the atoms with which a leg begins, so legs can be played in any order. What comes out is,
frame for frame, what playing them one after another gives.
"""
import os
import pickle
import subprocess
import sys
import tempfile
from bisect import bisect_right
from collections.abc import Collection, Iterable, Iterator, Sequence
from concurrent.futures import ThreadPoolExecutor
from dataclasses import dataclass
from functools import partial
from pathlib import Path

from ..base.children import words_of
from ..base.errors import LabError
from ..base.program import Program
from ..formats.world import World
from ..machine.code import element_codes
from ..machine.windows import Disagreement
from .failure_plane import FailurePlane
from .chain_legs import KeptLeg
from .frames import Frame, Playable, frames
from .replays import Plane

LEAST = 200_000  # events of a batch: with fewer it would hardly be worth a process
MOST_JOBS = 4  # side by side; each has the text of a report in memory


@dataclass(frozen=True)
class Batch:
    """What a process is to play: legs, and the moments of frames, counted in events of these legs.

    With a world it looks for events that failed.
    """

    program: Program
    files: Sequence[Path]
    world: World | None
    legs: Sequence[KeptLeg]
    moments: Collection[int]

    @property
    def events(self) -> int:
        """How many events the legs have."""
        return sum(leg.events for leg in self.legs)


@dataclass(frozen=True)
class PlayedBatch:
    """The frames of a batch, of which the first has the whole plane, and what there is behind the last."""

    frames: list[Frame]
    rest: Frame


def side_by_side(plane: Plane, legs: Sequence[Playable], moments: Collection[int]) -> Iterator[Frame]:
    """The frames of legs, as `frames` has them; of a long chain they are made by several processes."""
    kept = [leg for leg in legs if isinstance(leg, KeptLeg)]
    found = batches(plane, kept, moments) if len(kept) == len(legs) else []
    jobs = min(len(found), len(os.sched_getaffinity(0)), MOST_JOBS)
    if jobs < 2:
        yield from net(frames(plane, legs, moments))
        return
    pool, running = ThreadPoolExecutor(jobs), list[subprocess.Popen[bytes]]()
    try:
        yield from net(joined(found, pool.map(partial(played_apart, running), found)))
    finally:  # if the film is stopped, or a batch can't be played, the others end too
        pool.shutdown(wait=False, cancel_futures=True)
        for process in running:
            process.kill()
        pool.shutdown()


def net(films: Iterable[Frame]) -> Iterator[Frame]:
    """The frames without changes that are taken back before the next frame, of which some may know and others not."""
    cells: dict[int, str] = {}
    for frame in films:
        frame.changes = {site: atom for site, atom in frame.changes.items() if cells.get(site, "") != atom}
        put(cells, frame)
        yield frame


def batches(plane: Plane, legs: Sequence[KeptLeg], moments: Collection[int]) -> list[Batch]:
    """Legs in batches of so many events at least."""
    world = plane.maker.world if isinstance(plane, FailurePlane) else None
    found: list[Batch] = []
    begin = 0
    taken: list[KeptLeg] = []
    events = 0
    wanted = sorted(moments)
    for leg in legs:
        taken.append(leg)
        events += leg.events
        if events >= LEAST or leg is legs[-1]:
            own = wanted[bisect_right(wanted, begin):bisect_right(wanted, begin + events)]
            found.append(Batch(plane.program, plane.files, world, taken, {moment - begin for moment in own}))
            begin, events, taken = begin + events, 0, []
    return found


def played_apart(running: list["subprocess.Popen[bytes]"], batch: Batch) -> PlayedBatch:
    """Has a process of its own, which is put to those that run, play a batch."""
    words = words_of("lab.film.batches", "serve")
    with subprocess.Popen(words, stdin=subprocess.PIPE, stdout=subprocess.PIPE, stderr=subprocess.PIPE) as process:
        running.append(process)
        out, errors = process.communicate(pickle.dumps(batch))
    if process.returncode != 0:
        last = errors.decode(errors="replace").strip().rpartition("\n")[2]
        raise LabError(f"{batch.legs[0].name}: the process that was to play it ended with status {process.returncode}: {last}")
    found = pickle.loads(out)
    if isinstance(found, Exception):
        raise found
    assert isinstance(found, PlayedBatch)
    return found


def serve(_words: Sequence[str]) -> int:
    """Plays the batch of standard input; writes what it came to, or why it can't be played, to standard output."""
    batch = pickle.load(sys.stdin.buffer)
    try:
        found: PlayedBatch | Exception = played(batch)
    except (LabError, Disagreement) as error:
        found = error
    sys.stdout.buffer.write(pickle.dumps(found))
    return 0


def played(batch: Batch) -> PlayedBatch:
    """Plays a batch."""
    with tempfile.TemporaryDirectory() as room:
        plane = Plane(batch.program, batch.files, Path(room))
        if batch.world is not None:
            plane = FailurePlane(batch.program, batch.files, Path(room), batch.world, element_codes(batch.program, batch.files))
        found: list[Frame] = []
        playing = frames(plane, batch.legs, batch.moments)
        while True:
            try:
                found.append(next(playing))
            except StopIteration as end:
                return PlayedBatch(found, end.value)


def joined(parts: Iterable[Batch], results: Iterable[PlayedBatch]) -> Iterator[Frame]:
    """The frames of batches that follow one another; where a plane isn't the one that was left, that is a frame too."""
    cells: dict[int, str] = {}  # the atoms
    rest, done = Frame(), 0
    for number, (batch, result) in enumerate(zip(parts, results, strict=True)):
        first, *others = result.frames
        begun = {site: "" for site in cells.keys() - first.changes.keys()}
        begun |= {site: atom for site, atom in first.changes.items() if cells.get(site) != atom}
        rest.changes |= begun
        if number == 0 or (begun and batch.legs[0].is_apart):
            rest.events = done
            yield rest
            rest = Frame()
        cells = dict(first.changes)
        for frame in others:
            put(cells, frame)
            yield both(rest, frame, done + frame.events)
            rest = Frame()
        put(cells, result.rest)
        rest = both(rest, result.rest, 0)
        done += batch.events


def put(cells: dict[int, str], frame: Frame) -> None:
    """Makes the atoms those after a frame."""
    for site, atom in frame.changes.items():
        if atom:
            cells[site] = atom
        else:
            cells.pop(site, None)


def both(before: Frame, after: Frame, events: int) -> Frame:
    """What two frames have that follow one another, as one."""
    return Frame(events, before.changes | after.changes, before.abandoned + after.abandoned, before.places + after.places,
                 before.drifts + after.drifts, before.failed + after.failed)
