"""A sweep that is wanted: its plan, and its runs, made side by side."""
from collections.abc import Iterator, Sequence
from concurrent.futures import ThreadPoolExecutor
from dataclasses import dataclass
from pathlib import Path

from ..base.errors import LabError
from ..base.files import read_byte_text, read_bytes
from ..base.inputs import digest
from ..base.program import Program
from ..base.progress import Progress, Stop
from ..formats.layout import Layout
from ..measure.measures import measures_of
from ..measure.until import FUNCTION, OfChain, Until
from ..worlds.starting import drawn_world, first_seed
from .plan import FORM, MOST_RUNS, Plan, PlannedRun, Sweep
from .run import make_run
from .values import Setting, settings


@dataclass(frozen=True)
class WantedSweep:
    """What a sweep is to be; `sets`, `at`, `until` and `noise` are as the options have them, `measures` are columns. With `drift`
    the rows have how far the tiles were apart."""

    world: Path
    files: Sequence[Path]
    sets: Sequence[Setting]
    repeat: int
    legs: int | None
    step: bool
    seed: int | None
    at: Sequence[str]
    until: str | None  # or the name of a function behind FUNCTION
    keep: str
    measures: Sequence[str]
    drift: bool
    noise: str | None = None

    def plan(self) -> Plan:
        """The plan. Refuses what no run could do."""
        for option, value in (("repeat", self.repeat), ("legs", self.legs)):
            if value is not None and value < 1:
                raise LabError(f"--{option} {value}: it has to be at least 1")
        program, world = Program.find(), drawn_world(self.world)
        layout = Layout.of(program, self.files)
        measures = [measure.name for measure in measures_of(self.measures, layout)]
        if self.until is not None and not self.until.startswith(FUNCTION):
            Until.of(self.until, layout)
        texts = [read_byte_text(file) for file in self.files]
        acts = [*(Setting("--at", text) for text in self.at), *(Setting("--noise", text) for text in [self.noise] if text is not None)]
        found = settings(self.sets, texts, layout.elements, acts)
        plan = Plan(FORM, digest(read_bytes(self.world)), [digest(text.encode("latin-1")) for text in texts],
                    found.sets, found.together, self.repeat, first_seed(world, self.seed), self.legs, self.step, self.keep,
                    list(self.at), self.noise, self.until, self.drift, measures, [*layout.elements, *measures])
        if plan.runs > MOST_RUNS:
            raise LabError(f"the sweep would have {plan.runs} runs, at most {MOST_RUNS}")
        return plan


def made(sweep: Sweep, numbers: Sequence[int], jobs: int, progress: Progress, until: OfChain | None = None) -> Iterator[PlannedRun]:
    """Makes runs, and gives back each when it and those before it are over. `until` is the function that the plan names."""
    stop = Stop()
    progress.begin(len(numbers))

    def make(number: int) -> PlannedRun:
        """Makes one run."""
        wanted = sweep.run(number)
        make_run(sweep, wanted, stop, until)
        return wanted

    pool = ThreadPoolExecutor(jobs)
    try:
        for done, wanted in enumerate(pool.map(make, numbers), 1):
            yield wanted
            progress.at(done, f"run {done} of {len(numbers)}")
    finally:
        stop.set()
        pool.shutdown(cancel_futures=True)
        progress.end()
