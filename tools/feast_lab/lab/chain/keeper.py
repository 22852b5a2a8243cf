"""Keeps the legs of a chain that is made: writes their reports and their rows, some legs at a time."""
import time
from collections.abc import Sequence
from concurrent.futures import Future, ThreadPoolExecutor
from dataclasses import dataclass, field
from types import TracebackType

from ..base.files import append_to, cut_off
from ..formats.leg_report import LegReport
from .course import COURSE, Course, Leg
from .folder import ACTS, Begun, Folder
from .packed_legs import INDEX, MOST_WAITING, PACKS, PackedLegs, packed

MOMENT = 0.25  # seconds: legs that are made within this are written together


@dataclass
class Waiting:
    """Legs that are made and not written yet: their rows, what is kept of their reports, and the last of them."""

    rows: list[str] = field(default_factory=list)
    acts: list[str] = field(default_factory=list)  # that are still to be put on record
    kept: list[bytes] = field(default_factory=list)
    size: int = 0
    last: int = 0
    end: LegReport | None = None  # that of the last, if it isn't kept


class Keeper:
    """Writes legs in a thread of its own, while others are made.

    With its line in the index a pack of legs is done, and all that it speaks of has come down to the disk before, if the
    folder is lasting.
    """

    def __init__(self, folder: Folder, begun: Begun, course: Course) -> None:
        self.folder = folder
        self.begun = begun
        self.course = course
        self.packs = folder.packed(begun)
        self.waiting = Waiting()
        self.thread = ThreadPoolExecutor(1)
        self.writing: Future[None] | None = None
        self.began = 0.0  # when something was begun to be written last
        self.is_broken = False  # by a pack that could not be written, behind which none may be
        drop_undone(folder, course, self.packs)

    def __enter__(self) -> "Keeper":
        return self

    def __exit__(self, kind: type[BaseException] | None, _error: BaseException | None, _where: TracebackType | None) -> None:
        try:
            if not self.is_broken:
                self.flush()  # what is made is kept, whatever ends the making
        finally:
            self.thread.shutdown()

    def keep(self, leg: Leg, report: LegReport, acts: Sequence[str] = ()) -> None:
        """Takes a leg that was made, which is done a moment later, and acts before it that aren't on record."""
        waiting = self.waiting
        waiting.acts += acts
        waiting.rows.append(self.course.add(leg))
        waiting.last, waiting.end = leg.number, report
        if self.packs.keeps(leg.number):
            data = report.data if self.begun.keeps_reports else report.counted().data
            waiting.kept.append(data)
            waiting.size += len(data)
            waiting.end = None
        if waiting.size > MOST_WAITING or time.monotonic() - self.began >= MOMENT:
            self.write()

    def close(self) -> None:
        """Writes what waits, unless something could not be written before it."""
        self.__exit__(None, None, None)

    def write(self) -> None:
        """Begins to write what waits, once what was written before is."""
        self.wait()
        if self.waiting.rows:
            self.began = time.monotonic()
            waiting, self.waiting = self.waiting, Waiting()
            self.writing = self.thread.submit(self.written, waiting)

    def flush(self) -> None:
        """Writes what waits, and comes back when it is done."""
        self.write()
        self.wait()

    def wait(self) -> None:
        """Waits for what is being written; what is wrong with it is raised here."""
        writing, self.writing = self.writing, None
        if writing is not None:
            writing.result()

    def written(self, waiting: Waiting) -> None:
        """Writes legs."""
        try:
            self.write_pack(waiting)
        except BaseException:
            self.is_broken = True
            raise

    def write_pack(self, waiting: Waiting) -> None:
        """Writes legs, and then the line with which they are done."""
        folder, before = self.folder, self.packs.done
        data = packed(b"".join(waiting.kept))
        append_to(folder.path / PACKS, data, folder.is_lasting)
        if waiting.end is not None:
            folder.write(folder.atoms_file(waiting.last), waiting.end.atoms)
            folder.settle()
        if waiting.acts:
            folder.add_acts(waiting.acts)
        append_to(folder.path / COURSE, "".join(waiting.rows).encode(), folder.is_lasting)
        self.packs.add(waiting.last, len(data), waiting.size)
        append_to(folder.path / INDEX, self.packs.line().encode(), folder.is_lasting)
        if before > 0:
            folder.atoms_file(before).unlink(missing_ok=True)


def drop_undone(folder: Folder, course: Course, packs: PackedLegs) -> None:
    """Drops what is in a folder of legs that were not done."""
    cut_off(folder.path / INDEX, len(packs.text()))
    cut_off(folder.path / PACKS, packs.end)
    cut_off(folder.path / COURSE, len(course.text().encode()))
    cut_off(folder.path / ACTS, sum(len(text.encode()) + 1 for text in folder.act_texts()))
    for path in folder.path.glob("*.atoms"):
        if path not in (folder.atoms_file(0), folder.atoms_file(packs.done)):
            path.unlink(missing_ok=True)
