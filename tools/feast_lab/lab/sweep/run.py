"""A run of a sweep: a chain of one or more legs, made apart and then put in its place whole."""
import json
import os
import shutil
import socket
import tempfile
import uuid
from collections.abc import Iterator, Sequence
from contextlib import contextmanager
from pathlib import Path

from ..base.errors import LabError
from ..base.files import PART, cause, read_rows, read_text, sync, write_new
from ..base.inputs import START, digest
from ..base.progress import Progress, Stop
from ..chain.course import COLUMNS, COURSE
from ..chain.making import WantedChain, made
from ..chain.start import Options
from ..measure.until import Ends, OfChain
from .plan import Plan, PlannedRun, Sweep

LABEL = "run.json"


def make_run(sweep: Sweep, run: PlannedRun, stop: Stop, until: OfChain | None = None) -> None:
    """Makes a run, if it isn't there yet. If another maker puts it in its place first, that one stays. `until` is the function
    that the plan names."""
    if sweep.folder(run.number).is_dir():
        return
    with inputs(sweep, run) as (room, world, files):
        made(wanted_chain(sweep, run, room / "chain", world, files, until), Progress(), stop, is_lasting=False)
        put_in_place(sweep, run, room / "chain")


def again(sweep: Sweep, run: PlannedRun) -> None:
    """Asks for a chain again that has all its legs: nothing is made. Raises LabError if it was begun with anything else."""
    with inputs(sweep, run) as (_, world, files):
        made(wanted_chain(sweep, run, sweep.folder(run.number), world, files, at_once), Progress(), Stop(), is_lasting=False)


@contextmanager
def inputs(sweep: Sweep, run: PlannedRun) -> Iterator[tuple[Path, Path, list[Path]]]:
    """A folder on this machine, with the world and the element files of a run."""
    with tempfile.TemporaryDirectory(prefix="feast-sweep-") as name:
        room = Path(name)
        world, files = room / START, sweep.with_plain_names(room)
        write_new(world, sweep.world_of(run))
        for file, data in zip(files, sweep.elements_of(run), strict=True):
            write_new(file, data)
        yield room, world, files


def at_once(_folder: Path) -> Ends:
    """Has a chain be over as it is."""
    return lambda _end: True


def wanted_chain(sweep: Sweep, run: PlannedRun, folder: Path, world: Path, files: Sequence[Path], until: OfChain | None) -> WantedChain:
    """The chain that a run is; it is over as the plan says, or by something else."""
    plan = sweep.plan
    options = Options(plan.step, run.seed, plan.keep, 1, sweep.acts_of(run))
    return WantedChain(folder, world, files, plan.legs or 1, options, until or plan.until, plan.measures, drift=plan.drift)


def label(plan: Plan, run: PlannedRun) -> str:
    """What is kept beside a run: of which plan it is, and which of its runs."""
    told = {"plan": digest(plan.text().encode()), "run": run.number, "values": run.values, "seed": run.seed}
    return json.dumps(told, indent=2) + "\n"


def put_in_place(sweep: Sweep, run: PlannedRun, chain: Path) -> None:
    """Copies what is kept of a run beside its place, down to the disk, and then puts it there by one rename."""
    place = sweep.folder(run.number)
    beside = place.with_name(f"{place.name}.{socket.gethostname()}.{os.getpid()}.{uuid.uuid4().hex[:8]}{PART}")
    try:
        try:
            place.parent.mkdir(exist_ok=True)
            sync(sweep.path)
            if sweep.plan.keep == "none":
                beside.mkdir()
                shutil.copyfile(chain / COURSE, beside / COURSE)
            else:
                shutil.copytree(chain, beside, copy_function=shutil.copyfile)
            (beside / LABEL).write_text(label(sweep.plan, run))
            for path in [*beside.rglob("*"), beside]:
                sync(path)
            rename_first(beside, place)
            sync(place.parent)
        finally:
            shutil.rmtree(beside, ignore_errors=True)
    except (OSError, shutil.Error) as error:
        told = cause(error) if isinstance(error, OSError) and error.strerror else str(error)
        raise LabError(f"{place}: can't be written: {told}") from error


def rename_first(beside: Path, place: Path) -> None:
    """Puts a folder in its place, unless there is one by now."""
    try:
        os.rename(beside, place)
    except OSError:
        if not place.is_dir():
            raise


def rows_of(sweep: Sweep, run: PlannedRun) -> list[list[str]]:
    """The rows of a run that is over, in the columns of `Plan.head`: one for each leg, or, without legs, for its end."""
    folder, plan = sweep.folder(run.number), sweep.plan
    if read_text(folder / LABEL) != label(plan, run):
        raise LabError(f"{folder / LABEL}: the run was made for another plan, or for another number")
    path = folder / COURSE
    head, *legs = read_rows(path)
    columns = [*COLUMNS[:-1], *plan.of_course]
    if head != columns or any(len(leg) != len(columns) for leg in legs) or len(legs) < 2 - (plan.legs is not None):
        raise LabError(f"{path}: not the course of a run of this sweep")
    front = [*run.values.values(), str(run.seed)]
    if plan.legs is None:
        return [[*front, *legs[-1][2:]]]
    return [[*front, leg, str(sweep.seed_of(run, int(leg))) if int(leg) else "", *rest] for leg, _, *rest in legs]
