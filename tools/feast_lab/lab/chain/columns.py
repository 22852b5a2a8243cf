"""What the course of a chain is asked for beside the atoms: what is measured of them, how many events failed, and the drift."""
from collections.abc import Iterator, Sequence
from dataclasses import replace

from ..base.errors import LabError
from ..base.progress import Progress
from ..formats.layout import Layout
from ..formats.leg_report import LegReport
from ..formats.outcome import atom_lines
from ..machine.finder import Finder
from ..measure.measures import measured, measures_of
from .course import Course
from .legs import LegMaker
from .rule import NO_DRIFT


def with_measures(maker: LegMaker, course: Course, names: Sequence[str]) -> LegMaker:
    """The chain with further measures: columns that its course lacks are added, for the legs that are done too."""
    columns = list(dict.fromkeys([*course.measures, *names]))
    measures = measures_of(columns, maker.layout)
    if course.measures != columns:
        if maker.begun.every > 1 and len(course.legs) > 1:
            raise LabError(f"{maker.folder.path}: --{next(name for name in columns if name not in course.measures)}: it takes the atoms "
                           f"at the end of each leg that is done, and the chain keeps those of every {maker.begun.every}th alone")
        atoms = [maker.folder.atoms(0, maker.begun), *(report.atoms for _, report in reports(maker, Progress(), ""))]
        course.legs = [replace(leg, measured=measured(measures, text)) for leg, text in zip(course.legs, atoms, strict=True)]
        course.measures = columns
        maker.folder.write_course(course)
    return replace(maker, measures=measures)


def with_drift(maker: LegMaker, course: Course, progress: Progress) -> LegMaker:
    """The chain with a column of how far the tiles were apart; of the legs that are done it is found in their reports."""
    if course.has_drift:
        return maker
    refuse_without_reports(maker, course, "drift")
    found = [NO_DRIFT, *(maker.rule.drift(leg, report) for leg, report in reports(maker, progress, "drift"))]
    course.legs = [replace(leg, drift=drift) for leg, drift in zip(course.legs, found, strict=True)]
    course.has_drift = True
    maker.folder.write_course(course)
    return replace(maker, has_drift=True)


def with_failures(maker: LegMaker, course: Course, progress: Progress) -> LegMaker:
    """The chain with a column of the events that failed; of the legs that are done they are found in their reports."""
    if course.has_failures:
        return maker
    refuse_without_reports(maker, course, "failures")
    finding = replace(maker, finder=Finder(maker.program, maker.folder.files, maker.rule.world))
    before, found = atom_lines(maker.folder.atoms(0, maker.begun)), [0]
    for leg, report in reports(maker, progress, "failed events"):
        failed = finding.failed(leg, before, report)
        found.append(failed.total() if failed is not None else 0)
        before = atom_lines(report.atoms)
    course.legs = [replace(leg, failed=failed) for leg, failed in zip(course.legs, found, strict=True)]
    course.has_failures = True
    maker.folder.write_course(course)
    return finding


def reports(maker: LegMaker, progress: Progress, what: str) -> Iterator[tuple[int, LegReport]]:
    """The reports of the legs that are done, of a chain that keeps each in some form."""
    packs = maker.folder.packed(maker.begun)
    progress.begin(packs.done)
    for leg, report in packs.all():
        progress.at(leg - 1, f"{what} of leg {leg} of {packs.done}")
        yield leg, report
    progress.end()


def refuse_without_reports(maker: LegMaker, course: Course, option: str) -> None:
    """Refuses an option that takes the reports of the legs that are done, if there are some and the chain keeps no reports."""
    if len(course.legs) > 1 and not maker.begun.keeps_reports:
        raise LabError(f"{maker.folder.path}: --{option} takes the reports of the legs that are done, and the chain keeps none; "
                       "begin another one with it")


def carried_on(maker: LegMaker, course: Course, before: Course) -> tuple[LegMaker, list[str]]:
    """The chain with the columns that another's course has; and those measures that its elements have no members for."""
    can = [name for name in before.measures if is_measurable(name, maker.layout)]
    maker = with_measures(maker, course, can)
    if before.has_failures:
        maker = with_failures(maker, course, Progress())
    if before.has_drift:
        maker = with_drift(maker, course, Progress())
    return maker, [name for name in before.measures if name not in can]


def is_measurable(name: str, layout: Layout) -> bool:
    """Whether elements have what a measure is of."""
    try:
        measures_of([name], layout)
    except LabError:
        return False
    return True
