"""The audit of a chain: by the program, in parts that are audited side by side, and of what the lab wrote of each leg.

A chain that is cut behind a leg is two: the second one begins with the atoms that this leg left. If the program says `yes` of
both, and the atoms are those of the first one's report, it would of the whole (docs/chains.md, "A chain in parts").
"""
import os
import re
import tempfile
from collections.abc import Iterator, Sequence
from concurrent.futures import ThreadPoolExecutor
from dataclasses import dataclass, field
from pathlib import Path
from threading import Lock

from ..base.errors import LabError
from ..base.files import read_text, write_new
from ..base.program import Program, Refusal
from ..base.progress import Progress
from ..formats.leg_report import LegReport
from ..formats.outcome import atom_lines, counts
from ..machine.windows import Disagreement
from ..measure.measures import measured
from ..worlds.starting import first_atoms
from .course import Course, Leg
from .folder import Folder
from .legs import LegMaker
from .packed_legs import PackedLegs
from .rule import NO_DRIFT
from .start import chain_of

LARGEST = 1 << 24  # bytes of the reports of a part, unless a pack has more
PARTS = 4  # for each process there are so many parts at least, if the chain has as many packs
FAULT = re.compile(r"no leg (\d+) (.*)", re.ASCII)
PLACE = re.compile(r".*?:(\d+):\d+: ", re.ASCII)


@dataclass(frozen=True)
class Part:
    """Legs that are audited together, from the first to the last, with their reports; the atoms are those with which the
    first one's acts begin."""

    first: int
    last: int
    atoms: Sequence[str]
    reports: dict[int, LegReport]

    def leg_at(self, line: int) -> int:
        """The leg in whose report a line is."""
        for leg, report in self.reports.items():
            line -= report.data.count(b"\n")
            if line <= 0:
                return leg
        return self.last


def processors() -> int:
    """How many processes work side by side, if nothing else is said."""
    return len(os.sched_getaffinity(0))


def first_fault(folder: Folder, leg: int | None, progress: Progress, jobs: int, program: Program | None = None) -> str | None:
    """What is wrong first with a chain, or with a leg of it; None if it is what it says. So many parts are audited side by side,
    by the program that `./lab` would call if none is named."""
    begun = folder.begun()
    refuse_without_reports(folder)
    changed = folder.changed(begun)
    if changed is not None:
        return f"start: {changed.name} is not as it was when the chain was begun"
    chain = AuditedChain.of(program or Program.find(), folder)
    if leg is None:
        return next(chain.faults(jobs, progress), None)
    if not 0 <= leg <= chain.packs.done:
        raise LabError(f"{folder.path}: the chain has the legs 0 to {chain.packs.done}, and no leg {leg}")
    return chain.start_fault() if leg == 0 else chain.fault_of(chain.part(leg, leg))


def refuse_without_reports(folder: Folder) -> None:
    """Refuses a chain that keeps no reports."""
    if not folder.begun().keeps_reports:
        raise LabError(f"{folder.path}: the chain can't be audited: it was begun without --keep reports")


@dataclass(frozen=True)
class AuditedChain:
    """A chain that is being audited."""

    maker: LegMaker
    course: Course
    packs: PackedLegs
    finding: Lock = field(default_factory=Lock)  # the maker's finder has one plane, and is asked from several threads

    @staticmethod
    def of(program: Program, folder: Folder) -> "AuditedChain":
        """The chain of a folder."""
        maker, course = chain_of(program, folder)
        return AuditedChain(maker, course, folder.packed(maker.begun))

    def faults(self, jobs: int, progress: Progress) -> Iterator[str]:
        """What is wrong with the chain, part by part in their order; so many are audited side by side."""
        start = self.start_fault()
        if start is not None:
            yield start
        spans = self.spans(jobs)
        progress.begin(self.packs.done)
        pool = ThreadPoolExecutor(jobs)
        try:
            for (first, last), fault in zip(spans, pool.map(lambda span: self.fault_of(self.part(*span)), spans), strict=True):
                if fault is not None:
                    yield fault
                progress.at(last, f"leg {last} of {self.packs.done}")
        finally:
            pool.shutdown(cancel_futures=True)
        progress.end()

    def spans(self, jobs: int) -> list[tuple[int, int]]:
        """The parts, each by its first leg and its last: packs that follow one another, up to so many bytes."""
        most = min(sum(pack.size for pack in self.packs.packs) // (PARTS * jobs) + 1, LARGEST)
        found: list[tuple[int, int]] = []
        size = most
        for pack in self.packs.packs:
            if size + pack.size > most:
                found.append((pack.before + 1, pack.last))
                size = pack.size
            else:
                found[-1] = (found[-1][0], pack.last)
                size += pack.size
        return found

    def part(self, first: int, last: int) -> Part:
        """The legs from the first to the last."""
        folder, packs = self.maker.folder, self.packs
        atoms = packs.report(first - 1).atoms if first > 1 else read_text(folder.atoms_file(0))
        reports: dict[int, LegReport] = {}
        for pack in packs.packs:
            if pack.before < last and pack.last >= first:
                reports |= {leg: report for leg, report in packs.legs(pack).items() if first <= leg <= last}
        return Part(first, last, atom_lines(atoms), reports)

    def fault_of(self, part: Part) -> str | None:
        """What is wrong first with a part, if the atoms with which it begins are right."""
        leg, told = self.verdict(part)
        before = part.atoms
        for number, report in part.reports.items():
            if leg is not None and number >= leg:
                break
            fault = self.row_fault(number, before, report)
            if fault is not None:
                return fault
            before = atom_lines(report.atoms) if self.maker.finder is not None else before
        return None if leg is None else f"leg {leg}: {told}"

    def verdict(self, part: Part) -> tuple[int | None, str]:
        """The first leg that the program's audit finds at fault, and what it says."""
        maker = self.maker
        with tempfile.TemporaryDirectory(prefix="feast-audit-") as room:
            chain, report = Path(room) / "chain", Path(room) / "report"
            write_new(chain, maker.rule.part(part.first, part.last, part.atoms))
            write_new(report, b"".join(it.data for it in part.reports.values()))
            try:
                answer = maker.program.call(["audit", chain, report, *maker.folder.files]).text.strip()
            except Refusal as refusal:
                said = str(refusal).removeprefix(str(report))
                place = PLACE.match(said)
                if place is None:
                    raise
                return part.leg_at(int(place[1])), f"its report: {said[place.end():]}"
        fault = FAULT.fullmatch(answer)
        if fault is None and answer != "yes":
            raise LabError(f"{maker.program.path}: it said of an audit: {answer[:80]}")
        return (None, "") if fault is None else (int(fault[1]), f"the audit of its report: no {fault[2]}")

    def start_fault(self) -> str | None:
        """What is wrong with the start."""
        folder, course = self.maker.folder, self.course
        atoms = first_atoms(self.maker.program, folder.start, folder.files)
        if read_text(folder.atoms_file(0)) != atoms:
            return f"leg 0: {folder.atoms_file(0).name} has other atoms than it left"
        row = Leg(0, 0, 0, 0, counts(atoms, course.elements), measured(self.maker.measures, atoms),
                  0 if course.has_failures else None, NO_DRIFT if course.has_drift else None)
        return None if course.legs[0] == row else "leg 0: its row in the course is another"

    def row_fault(self, number: int, before: Sequence[str], report: LegReport) -> str | None:
        """What is wrong with what the lab wrote of a leg, whose report is right. `before` are the atoms that the leg before left."""
        try:
            with self.finding:
                failed = self.maker.failed(number, before, report)
        except Disagreement as fault:
            return f"leg {number}: {fault}"
        row = self.maker.row(number, report, failed)
        return None if self.course.legs[number] == row else f"leg {number}: its row in the course is another"
