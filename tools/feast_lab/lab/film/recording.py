"""What a film is made of: a run with its report, or a chain."""
from bisect import bisect_left
from collections.abc import Sequence
from dataclasses import dataclass
from functools import cached_property
from itertools import accumulate
from operator import itemgetter
from pathlib import Path

from ..base.errors import LabError
from ..base.program import Program
from ..chain.folder import Folder
from ..chain.kept_legs import KeptLegs
from ..chain.start import chain_of
from ..formats.layout import Layout
from ..formats.report import Report
from ..formats.world import World
from .chain_legs import EndedLeg, KeptLeg
from .frames import Playable, Reported


@dataclass(frozen=True)
class Recording:
    """Runs that follow one another, with their elements. `acts` are what is done before legs, which count from 0.

    `measures` are those of the course of a chain.
    """

    title: str
    world: World
    layout: Layout
    files: Sequence[Path]
    legs: Sequence[Playable]
    acts: Sequence[tuple[int, str]] = ()
    measures: Sequence[str] = ()

    @staticmethod
    def of(program: Program, words: Sequence[Path]) -> "Recording":
        """What the words name: a world, a report and element files, or a chain and, if they are given, element files."""
        if words[0].is_dir():
            return recording_of_chain(program, words[0], words[1:])
        if len(words) < 3:
            missing = "a report and the element files" if len(words) == 1 else "the element files"
            here = "" if words[0].exists() else f"{words[0]} is not there; "
            raise LabError(f"{here}the words have to be WORLD REPORT FILE.., or the folder DIR of a chain; {missing} "
                           f"should follow {words[-1]}")
        world, path, *files = words
        report = Report.read(path)
        leg = Reported(world, len(report.journal), path, report)
        return Recording(world.name, World.read(world), Layout.of(program, files), files, [leg])

    def reported(self) -> list[Reported | KeptLeg]:
        """The legs with their reports; refuses a chain that keeps none."""
        legs = [leg for leg in self.legs if isinstance(leg, Reported | KeptLeg)]
        if len(legs) < len(self.legs):
            raise LabError(f"{self.title}: the chain keeps no reports, so its events aren't known; "
                           "one that is begun with --keep reports has them")
        return legs

    @cached_property
    def ends(self) -> list[int]:
        """The start, and the moment at which each leg ends, in events over all legs."""
        return list(accumulate((leg.events for leg in self.legs), initial=0))

    @property
    def act_moments(self) -> list[tuple[int, str]]:
        """The moment of each act, and the act."""
        ends = self.ends
        return [(ends[leg], act) for leg, act in self.acts]

    def moments(self, frames: int) -> set[int]:
        """The moments of so many frames, evenly spaced, and those of acts."""
        ended = [leg for leg in self.legs if isinstance(leg, EndedLeg)]
        if ended:
            known = [0, *(end for leg, end in zip(ended, self.ends[1:], strict=True) if leg.is_known)]
            even = {known[at] for at in evenly(len(known) - 1, frames)}
            return even | {moment for moment, _ in self.act_moments if moment in known}
        return set(evenly(self.ends[-1], frames)) | {moment for moment, _ in self.act_moments}

    def leg_at(self, moment: int) -> tuple[Playable, int]:
        """The leg in which a moment lies, and how many events of the leg are over then."""
        ends = self.ends
        number = min(bisect_left(ends, moment, 1) - 1, len(self.legs) - 1)
        return self.legs[number], moment - ends[number]


def evenly(whole: int, parts: int) -> list[int]:
    """The start and the ends of so many parts of a number, as even as can be; fewer if it is small."""
    return sorted({whole * part // parts for part in range(parts + 1)})


def recording_of_chain(program: Program, path: Path, files: Sequence[Path]) -> Recording:
    """The chain of a folder. Element files that are named take the place of its own, for what is shown."""
    folder = Folder(path)
    maker, course = chain_of(program, folder)
    rows = course.legs[1:]
    if not rows:
        raise LabError(f"{path}: the chain has no leg yet")
    kept = KeptLegs(maker, folder.packed(maker.begun))
    legs: Sequence[Playable] = [KeptLeg(kept, row.number, row.events) for row in rows]
    if not maker.begun.keeps_reports:
        legs = [EndedLeg(kept, row.number, row.events, row.abandoned) for row in rows]
    layout = Layout.of(program, files) if files else maker.layout
    acts = acts_by_leg(folder.act_texts(), len(legs))
    return Recording(path.resolve().name, maker.rule.world, layout, files or folder.files, legs, acts, course.measures)


def acts_by_leg(texts: Sequence[str], legs: int) -> list[tuple[int, str]]:
    """The acts on record before single legs that there are, which count from 0; what only gives a leg its length is none."""
    found = []
    for text in texts:
        leg, _, act = text.partition(":")
        if leg != "every" and not act.startswith("attempts:") and int(leg) <= legs:
            found.append((int(leg) - 1, act))
    return sorted(found, key=itemgetter(0))
