"""What the runs of a sweep came to, in one table; and whether they are what the plan says."""
import csv
import io
from collections.abc import Iterator, Sequence
from concurrent.futures import ThreadPoolExecutor
import itertools

from ..base.errors import LabError
from ..base.files import read_text, write_inside
from ..base.locks import held
from ..base.program import Program
from ..base.progress import Progress
from ..chain.audit import AuditedChain
from ..chain.folder import Folder
from ..measure.until import FUNCTION, LegEnd, Until
from .plan import TABLE, PlannedRun, Sweep
from .run import again, rows_of


def gather(sweep: Sweep, progress: Progress) -> list[int]:
    """Writes the table of the runs that are over; gives back the numbers of those that are missing."""
    runs = sweep.plan.runs
    with held(sweep.path, "gathering this sweep"):
        missing = sweep.missing()
        write_inside(sweep.path / TABLE, table(sweep, sorted({*range(1, runs + 1)} - {*missing}), progress))
    return missing


def table(sweep: Sweep, numbers: Sequence[int], progress: Progress) -> str:
    """The rows of these runs as CSV, with the number of each run before them."""
    text = io.StringIO()
    out = csv.writer(text, lineterminator="\n")
    out.writerow(["run", *sweep.plan.head])
    progress.begin(len(numbers))
    for done, number in enumerate(numbers):
        progress.at(done, f"reading run {done + 1} of {len(numbers)}")
        out.writerows([number, *row] for row in rows_of(sweep, sweep.run(number)))
    progress.end()
    return text.getvalue()


def spans(numbers: Sequence[int]) -> str:
    """Numbers that rise, as `sbatch --array` takes them: 3,17-20."""
    ends: list[list[int]] = []
    for number in numbers:
        if ends and number == ends[-1][1] + 1:
            ends[-1][1] = number
        else:
            ends.append([number, number])
    return ",".join(str(first) if first == last else f"{first}-{last}" for first, last in ends)


def first_fault(sweep: Sweep, progress: Progress, jobs: int) -> str | None:
    """What is wrong first with a sweep; None if it is what its plan says."""
    if sweep.plan.keep != "reports":
        raise LabError(f"{sweep.path}: the sweep can't be audited: it was planned without --keep reports")
    missing = sweep.missing()
    if missing:
        raise LabError(f"{sweep.path}: the sweep can't be audited yet: it lacks the runs {spans(missing)}")
    return next(faults(sweep, progress, jobs), None)


def faults(sweep: Sweep, progress: Progress, jobs: int) -> Iterator[str]:
    """What is wrong with a sweep: run by run, of which so many are audited side by side, and then its table."""
    program, runs = Program.find(), range(1, sweep.plan.runs + 1)
    progress.begin(len(runs))
    pool = ThreadPoolExecutor(jobs)
    try:
        for number, fault in zip(runs, pool.map(lambda number: fault_of(program, sweep, sweep.run(number)), runs), strict=True):
            if fault is not None:
                yield f"run {number}: {fault}"
            progress.at(number, f"run {number} of {len(runs)}")
    finally:
        pool.shutdown(cancel_futures=True)
    progress.end()
    if read_text(sweep.path / TABLE) != table(sweep, runs, progress):
        yield f"{TABLE}: its rows are not those of the runs"


def fault_of(program: Program, sweep: Sweep, run: PlannedRun) -> str | None:
    """What is wrong first with a run: it isn't the chain that the plan says, or its chain isn't true."""
    folder = Folder(sweep.folder(run.number))
    rows_of(sweep, run)
    begun = folder.begun()
    changed = folder.changed(begun)
    if changed is not None:
        return f"start: {changed.name} is not as it was when the chain was begun"
    chain = AuditedChain.of(program, folder)
    if not ends_as_planned(sweep, chain):
        return "it has not the legs that the plan says"
    try:
        again(sweep, run)
    except LabError as error:
        return f"it is not the chain that the plan says: {error}"
    if folder.act_texts() != begun.at:
        return "acts were done that the plan hasn't"
    return next(chain.faults(1, Progress()), None)


def ends_as_planned(sweep: Sweep, chain: AuditedChain) -> bool:
    """Whether a run has all its legs, or else those up to the first at whose end the rule of --until holds. Of a function it
    isn't known when it holds."""
    folder, last, legs = chain.maker.folder, chain.packs.done, sweep.plan.legs or 1
    if sweep.plan.until is None:
        return last == legs
    if sweep.plan.until.startswith(FUNCTION):
        return last <= legs
    until = Until.of(sweep.plan.until, chain.maker.layout)
    atoms = itertools.chain([folder.atoms(0, chain.maker.begun)], (report.atoms for _, report in chain.packs.all()))
    ends = itertools.accumulate(leg.events for leg in chain.course.legs)
    holds = [leg for leg, (left, events) in enumerate(zip(atoms, ends, strict=True)) if until.holds(LegEnd(left, events, chain.course.sites, leg))]
    return holds == [last] or (last == legs and not holds)
