"""The legs of a chain, played for a film.

A moment within a leg is a `replay` of the events since the moment before: the chain file has that leg alone, with the atoms
of then, and the report the events between. So each event is made once, and the program draws where it is.
"""
from collections import Counter
from collections.abc import Callable, Iterator, Sequence
from dataclasses import dataclass
from functools import lru_cache
from pathlib import Path

from ..base.errors import LabError
from ..base.files import write_new
from ..base.program import Program
from ..chain.folder import Folder
from ..chain.kept_legs import KeptLegs
from ..formats.outcome import atom_lines
from ..formats.report import Report
from ..formats.whole import Drawn
from ..formats.world import Placed
from ..measure.drift import LegDrift, plans
from .frames import Frame, Player, ReportPlayer
from .replays import Plane


@lru_cache(1)
def opened(folder: Path, program: Program) -> KeptLegs:
    """The legs of a folder, which a process that plays some of them opens once."""
    return KeptLegs.of(Folder(folder), program)


def reopened(folder: Path, program: Program, number: int, events: int) -> "KeptLeg":
    """A leg that was handed to another process."""
    return KeptLeg(opened(folder, program), number, events)


@dataclass(frozen=True)
class ChainLeg:
    """A leg of a chain."""

    legs: KeptLegs
    number: int
    events: int

    @property
    def name(self) -> str:
        """The leg in words."""
        return self.legs.name(self.number)

    @property
    def is_apart(self) -> bool:
        """Whether something was done before it alone."""
        acts = self.legs.maker.rule.acts.by_leg.get(self.number, ())
        return any(act.attempts is None for act in acts)

    def planned(self) -> list[int]:
        """How many attempts each tile has."""
        return plans(self.legs.maker.rule.world_of(self.number))


@dataclass(frozen=True)
class KeptLeg(ChainLeg):
    """A leg whose report is kept."""

    def __reduce__(self) -> tuple[Callable[..., "KeptLeg"], tuple[object, ...]]:
        """How it is handed to another process: without what is open."""
        maker = self.legs.maker
        return reopened, (maker.folder.path, maker.program, self.number, self.events)

    def player(self, plane: Plane) -> Player:
        """What plays the leg."""
        if not plane.is_whole:
            return LegPlayer(plane, self)
        world = self.legs.maker.rule.world_of(self.number)
        for line in self.legs.begun(self.number):
            x, y, name, state = line.split(" ")
            world.atoms.append(Placed(int(x), int(y), name, int(state, 16)))
        return ReportPlayer(plane, world, self.checked(plane.program, plane.files, plane.room), self.is_apart)

    def checked(self, program: Program, files: Sequence[Path], room: Path) -> Report:
        """The whole report. Refuses one whose events don't lead to its atoms."""
        report = self.legs.report(self.number)
        if self.replayed(program, files, room, 0, self.events, self.legs.left(self.number - 1)) != atom_lines(report.atoms):
            raise LabError(f"{self.name}: its atoms are not those to which its events lead")
        return Report.of(self.legs.maker.folder.path, self.legs.whole(self.number))

    def atoms_after(self, plane: Plane, events: int) -> list[str]:
        """The lines of the atoms after so many events of the leg."""
        if events == 0:
            return self.legs.begun(self.number)
        if events == self.events:
            return self.legs.left(self.number)
        return self.replayed(plane.program, plane.files, plane.room, 0, events, self.legs.left(self.number - 1))

    def replayed(self, program: Program, files: Sequence[Path], room: Path, since: int, upto: int, atoms: Sequence[str]) -> list[str]:
        """The lines of the atoms after so many events, from those at a moment before. At moment 0 they are those that the leg
        before left: the acts are still to come."""
        rule = self.legs.maker.rule
        chain, report = room / "part.chain", room / "part.report"
        write_new(chain, rule.within(self.number, atoms) if since else rule.part(self.number, self.number, atoms))
        records = self.legs.report(self.number).records(since, upto)
        write_new(report, b"feast 2\natoms 0\njournal %d\n%sabandoned 0\n" % (upto - since, records))
        return atom_lines(program.call(["replay", chain, report, *files]).text)


class LegPlayer:
    """Plays a leg of a chain by its short report."""

    def __init__(self, plane: Plane, leg: KeptLeg) -> None:
        self.plane = plane
        self.leg = leg
        self.is_apart = leg.is_apart
        self.report = leg.legs.report(leg.number)
        self.given_up = self.places() if self.report.lost else []
        self.at = 0
        self.atoms: Sequence[str] = []  # at that moment, unless it is 0

    def begin(self) -> dict[int, str]:
        """Makes the plane that of the beginning; gives back what changed."""
        self.plane.world = self.leg.legs.maker.rule.world
        return self.plane.swap(self.leg.legs.begun(self.leg.number))

    def go(self, upto: int, frame: Frame) -> None:
        """Plays until so many events of the leg are over, into a frame."""
        if upto < self.leg.events or self.at > 0:
            self.play(upto)
        if upto == self.leg.events:
            self.plane.comes_to(self.leg.legs.left, self.leg.number)
        else:
            self.plane.comes_to(list, self.atoms)
        if upto == self.leg.events:
            frame.drifts.append(LegDrift.of(self.leg.planned(), self.report.tiles if self.plane.world.tiles > 1 else b""))
        self.at = upto
        while self.given_up and self.given_up[-1][0] <= upto:
            frame.places[self.given_up.pop()[1]] += 1
            frame.abandoned += 1

    def play(self, upto: int) -> None:
        """Makes the events up to a moment. At the end they have to lead to the atoms of the report."""
        plane, leg = self.plane, self.leg
        before = self.atoms if self.at else leg.legs.left(leg.number - 1)
        self.atoms = leg.replayed(plane.program, plane.files, plane.room, self.at, upto, before)
        if upto == leg.events and self.atoms != atom_lines(self.report.atoms):
            raise LabError(f"{leg.name}: its atoms are not those to which its events lead")

    def places(self) -> list[tuple[int, int]]:
        """When and at which site attempts were given up, from the last to the first: each with the next event of its tile."""
        world = self.leg.legs.maker.rule.world_of(self.leg.number)
        given_up = Drawn.given_up(world, self.report)
        events = {tile: list(numbers_of(tile, self.report.tiles)) for tile in {int(name) for name, _, _ in given_up}}
        found, lost = [], Counter[int]()
        for name, attempt, site in given_up:
            tile, (x, y) = int(name), site.split(" ")
            place = attempt - lost[tile]  # each attempt before it was an event, or was given up
            lost[tile] += 1
            found.append((events[tile][place] if place < len(events[tile]) else self.leg.events, int(y) * world.columns + int(x)))
        return sorted(found, reverse=True)


def numbers_of(tile: int, tiles: bytes) -> Iterator[int]:
    """The numbers of the events of a tile, counted from 1; `tiles` has the tile of each event."""
    number = 0
    while (number := tiles.find(tile, number) + 1) > 0:
        yield number


@dataclass(frozen=True)
class EndedLeg(ChainLeg):
    """A leg of a chain that keeps no reports: only the atoms at its end may be known."""

    abandoned: int

    @property
    def is_known(self) -> bool:
        """Whether the atoms at its end are."""
        return self.legs.packs.keeps(self.number) or self.number == self.legs.packs.done

    def left(self, number: int) -> list[str]:
        """The lines of the atoms that a leg left."""
        return atom_lines(self.legs.maker.folder.atoms(number, self.legs.maker.begun))

    def begun(self) -> list[str]:
        """The lines of the atoms at its beginning."""
        return list(self.legs.maker.before(self.number, self.left(self.number - 1)))

    def player(self, plane: Plane) -> Player:
        """What plays the leg from its beginning to its end at once."""
        return EndPlayer(plane, self)

    def atoms_after(self, plane: Plane, events: int) -> list[str]:
        """The lines of the atoms at its beginning or its end; refuses other moments."""
        if events == self.events:
            return self.left(self.number)
        if events == 0:
            return self.begun()
        raise LabError(f"{self.name}: the chain keeps no reports, so the plane is known at the ends of its legs alone")


class EndPlayer:
    """Plays a leg by the atoms at its end."""

    def __init__(self, plane: Plane, leg: EndedLeg) -> None:
        self.plane = plane
        self.leg = leg
        packs = leg.legs.packs
        self.is_apart = leg.is_apart and (leg.number == 1 or packs.keeps(leg.number - 1))

    def begin(self) -> dict[int, str]:
        """Makes the plane that of the beginning; gives back what changed."""
        self.plane.world = self.leg.legs.maker.rule.world
        return self.plane.swap(self.leg.begun())

    def go(self, upto: int, frame: Frame) -> None:
        """Plays to the end of the leg; no other moment is known."""
        if upto == self.leg.events:
            if self.leg.is_known:
                self.plane.comes_to(self.leg.left, self.leg.number)
            frame.abandoned += self.leg.abandoned
