"""The course of a chain: a table with a row for each leg, to which rows are only added."""
import csv
import io
from collections.abc import Sequence
from dataclasses import dataclass, field
from pathlib import Path

from ..base.errors import LabError
from ..base.files import read_text

COURSE = "course.csv"
COLUMNS = ["leg", "attempts", "events", "abandoned", "aeps"]
FAILED = "failed"  # the column before aeps, if failed events are looked for
DRIFT = "drift"  # the column behind aeps, if it is looked how far tiles were apart


@dataclass(frozen=True)
class Leg:
    """A row of the course: a leg, the atoms of each element at its end, and what is measured of them. Leg 0 is the start.

    `failed` is how many of its events failed, and `drift` how far its tiles were apart, if that is looked for.
    """

    number: int
    attempts: int
    events: int
    abandoned: int
    counts: list[int]
    measured: list[str] = field(default_factory=list)
    failed: int | None = None
    drift: str | None = None


@dataclass
class Course:
    """The legs so far; `sites` is how many live sites the plane has, `measures` are the columns of what is measured.

    `has_failures` says whether there is a column of the events that failed, `has_drift` whether there is one of the drift.
    `events` and `abandoned` are those of all legs.
    """

    elements: list[str]
    sites: int
    legs: list[Leg] = field(default_factory=list)
    measures: list[str] = field(default_factory=list)
    has_failures: bool = False
    has_drift: bool = False
    events: int = 0
    abandoned: int = 0

    def add(self, leg: Leg) -> str:
        """Adds a leg behind the others; gives back its row."""
        self.legs.append(leg)
        self.events += leg.events
        self.abandoned += leg.abandoned
        return self.row(leg, self.events)

    def row(self, leg: Leg, events: int) -> str:
        """The row of a leg, up to whose end there were so many events."""
        failed = [leg.failed] if self.has_failures else []
        drift = [leg.drift] if self.has_drift else []
        own = [leg.number, leg.attempts, leg.events, leg.abandoned, *failed, f"{events / self.sites:.4f}", *drift]
        return row_of([*own, *leg.counts, *leg.measured])

    def text(self) -> str:
        """The course as CSV."""
        events, rows = 0, [row_of(self.head)]
        for leg in self.legs:
            events += leg.events
            rows.append(self.row(leg, events))
        return "".join(rows)

    @property
    def head(self) -> list[str]:
        """The columns."""
        failed = [FAILED] if self.has_failures else []
        drift = [DRIFT] if self.has_drift else []
        return [*COLUMNS[:-1], *failed, COLUMNS[-1], *drift, *self.elements, *self.measures]

    def with_legs(self, legs: Sequence[Leg]) -> "Course":
        """A course of these legs, with the same columns."""
        found = Course(self.elements, self.sites, [], self.measures, self.has_failures, self.has_drift)
        for leg in legs:
            found.add(leg)
        return found

    def upto(self, leg: int) -> "Course":
        """The course up to a leg."""
        return self.with_legs(self.legs[:leg + 1])

    def summary(self, path: Path) -> str:
        """What the chain has come to, in a line."""
        return f"{path}: {len(self.legs) - 1} legs, {self.events} events, {self.events / self.sites:.4f} a site"


def row_of(cells: Sequence[object]) -> str:
    """A row of CSV."""
    text = io.StringIO()
    csv.writer(text, lineterminator="\n").writerow(cells)
    return text.getvalue()


def first_lines(text: str, count: int) -> str:
    """So many lines of a text, each with its end."""
    return "".join(text.splitlines(keepends=True)[:count])


def read_course(path: Path, legs: int, elements: list[str], sites: int) -> Course:
    """The course of so many legs and the start; rows behind theirs are those of legs that weren't done."""
    text = first_lines(read_text(path), legs + 2)
    try:
        header, *rows = list(csv.reader(io.StringIO(text))) or [[]]
    except csv.Error as error:
        raise LabError(f"{path}: no table in CSV: {error}") from error
    has_failures = FAILED in header[:len(COLUMNS)]
    has_drift = header[len(COLUMNS) + has_failures:][:1] == [DRIFT]
    course = Course(elements, sites, has_failures=has_failures, has_drift=has_drift)
    first = len(course.head)
    if header[:first] != course.head:
        raise LabError(f"{path}:1: its columns are not those of this chain")
    course.measures = header[first:]
    for number, row in enumerate(rows):
        course.add(leg_of(row, number, course, path))
    if len(rows) != legs + 1 or course.text() != text:
        raise LabError(f"{path}: not as the lab wrote it; take back what was changed")
    return course


def leg_of(row: list[str], number: int, course: Course, path: Path) -> Leg:
    """The leg of a row."""
    before = len(COLUMNS) - 1 + course.has_failures
    behind = before + 1 + course.has_drift
    first = behind + len(course.elements)
    try:
        leg, attempts, events, abandoned, *failed = map(int, row[:before])
        counts = list(map(int, row[behind:first]))
    except ValueError as error:
        raise LabError(f"{path}:{number + 2}: no row of a course") from error
    if leg != number or len(row) != len(course.head):
        raise LabError(f"{path}:{number + 2}: the row of leg {number} should stand here")
    return Leg(leg, attempts, events, abandoned, counts, row[first:], failed[0] if failed else None,
               row[before + 1] if course.has_drift else None)
