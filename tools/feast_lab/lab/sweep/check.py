"""Whether the program accepts every combination of a sweep, before the first run."""
import tempfile
from collections.abc import Sequence
from pathlib import Path

from ..base.errors import LabError
from ..base.files import write_new
from ..base.program import Program, Refusal
from ..base.progress import Progress
from ..chain.start import acts_of
from ..formats.layout import Layout
from ..formats.world import World
from ..worlds.starting import first_atoms
from .plan import Plan, Sweep, write_plan


def check_runs(plan: Plan, world: Path, files: Sequence[Path], progress: Progress) -> None:
    """Has the program read the files as they are, and those of each combination. What it refuses is raised with
    the values that led to it, and with the name of the file as it was given."""
    program = Program.find()
    first_atoms(program, world, files)
    with tempfile.TemporaryDirectory() as name:
        room = Path(name)
        sweep = Sweep(room / "sweep")
        write_plan(sweep, plan, world, files)
        copies = {"start.world": str(world)} | {f"{number:02}": str(file) for number, file in enumerate(files)}
        combinations = plan.runs // plan.repeat
        progress.begin(combinations)
        for done in range(combinations):
            progress.at(done, f"reading combination {done + 1} of {combinations}")
            check(program, sweep, done * plan.repeat + 1, room, copies)
        progress.end()


def check(program: Program, sweep: Sweep, number: int, room: Path, copies: dict[str, str]) -> None:
    """Has the program read the files of a run."""
    run = sweep.run(number)
    legs = sweep.plan.legs or 1
    for copy, data in zip(copies, [sweep.world_of(run), *sweep.elements_of(run)], strict=True):
        write_new(room / copy, data)
    start, *elements = copies
    try:
        first_atoms(program, Path(start), elements, room)
        layout = Layout.of(program, [room / element for element in elements])
        for act in acts_of(sweep.acts_of(run), World.read(room / start), layout):
            if act.leg > legs and not act.is_every:
                raise LabError(f"--at {act.text}: a run has {legs} leg{'s' * (legs > 1)}; give --legs {act.leg} or more")
    except Refusal as refusal:
        line = str(refusal)
        original = next((f"{file}{line[len(copy):]}" for copy, file in copies.items() if line.startswith(f"{copy}:")), line)
        values = run.values_text()
        raise LabError(f"{original} (with {values})" if values else original) from refusal
