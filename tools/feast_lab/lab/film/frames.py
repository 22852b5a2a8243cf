"""The frames of a film: what changed on the plane from each to the next, and which attempts were given up."""
from bisect import bisect_right
from collections import Counter, defaultdict
from collections.abc import Collection, Generator, Sequence
from dataclasses import dataclass, field
from pathlib import Path
from typing import Protocol

from ..base.errors import LabError
from ..base.program import Program
from ..formats.report import Report, read_report
from ..formats.world import World
from ..measure.drift import LegDrift, plans, tiles_of
from .replays import Plane, call_on


@dataclass
class Frame:
    """A moment of a run: how many events lie before it, and what is new since the frame before.

    A change is a site, numbered row by row, with its atom as `NAME STATE`, or with nothing. `drifts` are those of the legs
    that ended since the frame before, if their events are known.
    """

    events: int = 0
    changes: dict[int, str] = field(default_factory=dict)
    abandoned: int = 0
    places: Counter[int] = field(default_factory=Counter)  # how many attempts were given up at a site, if that is known
    drifts: list[LegDrift] = field(default_factory=list)
    failed: Counter[int] = field(default_factory=Counter)  # how many events failed at a site, if the plane looks for that


class Player(Protocol):
    """What plays a leg from its beginning on.

    `is_apart` says whether the leg begins otherwise than the one before ended, so that its beginning is a frame.
    """

    is_apart: bool

    def begin(self) -> dict[int, str]:
        """Makes the plane that of the beginning; gives back what changed."""

    def go(self, upto: int, frame: Frame) -> None:
        """Plays until so many events of the leg are over, into a frame."""


class Playable(Protocol):
    """A run that is one of a chain or stands alone."""

    @property
    def events(self) -> int:
        """How many events it has."""

    @property
    def name(self) -> str:
        """What it is called where something is wrong with it."""

    def player(self, plane: Plane) -> Player:
        """What plays it on a plane, which is as the leg before left it."""

    def atoms_after(self, plane: Plane, events: int) -> list[str]:
        """The lines of the atoms after so many of its events."""

    def planned(self) -> list[int]:
        """How many attempts each tile has."""


@dataclass(frozen=True)
class Reported:
    """A run whose report is at hand, and maybe read."""

    world: Path
    events: int
    report: Path
    known: Report | None = None

    @property
    def name(self) -> str:
        """Its world."""
        return str(self.world)

    def player(self, plane: Plane) -> Player:
        """What plays the run, whose report is checked first."""
        return ReportPlayer(plane, World.read(self.world), self.checked(plane.program, plane.files, plane.room))

    def checked(self, program: Program, files: Sequence[Path], room: Path) -> Report:
        """The report. Refuses one whose events aren't those of its world, or don't lead to its atoms."""
        data = read_report(self.report)
        report = self.known or Report.of(self.report, data)
        lines = call_on(program, self.report, data, room, ["replay", self.world], files)
        if lines[2:] != [atom.text() for atom in report.atoms]:
            raise LabError(f"{self.report}: its atoms are not those to which its events lead from {self.world}")
        return report

    def atoms_after(self, plane: Plane, events: int) -> list[str]:
        """The lines of the atoms, by `rewind`."""
        if events == 0:
            return [atom.text() for atom in World.read(self.world).atoms]
        data = read_report(self.report)
        return call_on(plane.program, self.report, data, plane.room, ["rewind", self.world, str(events)], plane.files)[2:]

    def planned(self) -> list[int]:
        """How many attempts each tile has."""
        return plans(World.read(self.world))


class ReportPlayer:
    """Plays a run by its whole report."""

    def __init__(self, plane: Plane, world: World, report: Report, is_apart: bool = True) -> None:
        self.plane = plane
        self.world = world
        self.is_apart = is_apart
        self.records = report.journal.lines
        self.given_up = moments_of(world, report)
        self.at = 0

    def begin(self) -> dict[int, str]:
        """Makes the plane that of the beginning; gives back what changed."""
        return self.plane.begin(self.world)

    def go(self, upto: int, frame: Frame) -> None:
        """Plays until so many events are over, into a frame."""
        frame.changes |= self.plane.play(self.records[self.at:upto])
        if upto == len(self.records):
            frame.drifts.append(LegDrift.of(plans(self.world), tiles_of(self.records) if self.world.tiles > 1 else b""))
        frame.failed.update(self.plane.failed)
        self.plane.failed.clear()
        self.at = upto
        while self.given_up and self.given_up[-1][0] <= upto:
            frame.places[self.given_up.pop()[1]] += 1
            frame.abandoned += 1


def frames(plane: Plane, legs: Sequence[Playable], moments: Collection[int]) -> Generator[Frame, None, Frame]:
    """The frame at the start, and those at the moments, counted in events over all legs; it ends with what is behind these.

    Where a leg begins apart from the one before, that is a frame too, with as many events.
    """
    frame = Frame()
    done = 0
    wanted = sorted(moments)
    for number, leg in enumerate(legs):
        player = leg.player(plane)
        if number == 0 or player.is_apart or plane.is_whole:
            begun = player.begin()
            frame.changes |= begun
            if number == 0 or (player.is_apart and begun):
                frame.events = done
                yield frame
                frame = Frame()
        inside = wanted[bisect_right(wanted, done):bisect_right(wanted, done + leg.events)]
        for upto in sorted({*(moment - done for moment in inside), leg.events}):
            player.go(upto, frame)
            if upto > 0 and inside and done + upto in moments:
                frame.changes |= plane.settle()
                frame.events = done + upto
                yield frame
                frame = Frame()
        done += leg.events
    frame.changes |= plane.settle()
    return frame


def moments_of(world: World, report: Report) -> list[tuple[int, int]]:
    """When and at which site attempts were given up, from the last to the first.

    A report doesn't say when it was. An attempt is told with the next event of its tile, or, behind the last of
    them, at the end.
    """
    if not report.abandoned:
        return []
    attempts: dict[str, list[int]] = defaultdict(list)
    events: dict[str, list[int]] = defaultdict(list)
    for number, line in enumerate(report.journal.lines, 1):
        _, tile, attempt, _ = line.split(" ", 3)
        attempts[tile].append(int(attempt))
        events[tile].append(number)
    found = []
    for line in report.abandoned.lines:
        tile, attempt, x, y, _ = line.split(" ", 4)
        place = bisect_right(attempts[tile], int(attempt))
        moment = events[tile][place] if place < len(events[tile]) else len(report.journal)
        found.append((moment, int(y) * world.columns + int(x)))
    return sorted(found, reverse=True)
