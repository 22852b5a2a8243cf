"""The plan of a sweep: a folder with a world, element files, and one JSON that says how all runs are made.

  sweep.json   the plan: what is set to which values, the seeds, and the options of each run
  start.world  a copy of the world
  elements/    copies of the element files
  runs/NNNNN/  what run NNNNN has come to, from 00001 on; it is put in its place whole, by one rename
  sweep.csv    the rows of all runs, once they are gathered
"""
import json
from collections.abc import Mapping, Sequence
from dataclasses import asdict, dataclass
from functools import cached_property
from math import prod
from pathlib import Path
from typing import Any

from ..base.errors import LabError
from ..base.files import PART, cause, read_byte_text, read_bytes, read_text
from ..base.inputs import ELEMENTS, START, Inputs
from ..base.seeds import nth
from ..chain.acts import noise
from ..chain.course import DRIFT
from ..formats.constants import with_values
from ..formats.world import World
from .values import OF_WORLD, FILL, set_world, sized

FORM = "feast sweep 4"
PLAN = "sweep.json"
RUNS = "runs"
TABLE = "sweep.csv"
MOST_RUNS = 1_000_000
NONE: type = type(None)
KINDS: dict[str, list[type]] = {
    "form": [str], "world": [str], "elements": [list], "sets": [dict], "together": [list], "repeat": [int], "seed": [int], "legs": [int, NONE],
    "step": [bool], "keep": [str], "at": [list], "noise": [str, NONE], "until": [str, NONE], "drift": [bool], "measures": [list], "columns": [list]}


@dataclass(frozen=True)
class Plan:
    """How the runs of a sweep are made. Without `legs` each run is a single call, and has one row at its end."""

    form: str
    world: str  # the SHA-256 of the copy
    elements: list[str]  # those of the copies
    sets: dict[str, list[str]]
    together: list[list[str]]  # the names whose values go together
    repeat: int
    seed: int
    legs: int | None
    step: bool
    keep: str
    at: list[str]
    noise: str | None  # the probability with which a bit of each atom is changed before each leg
    until: str | None
    drift: bool
    measures: list[str]
    columns: list[str]  # the elements, whose numbers of atoms a row has, and the measures

    @property
    def runs(self) -> int:
        """How many runs there are."""
        return prod(len(self.sets[names[0]]) for names in self.together) * self.repeat

    def text(self) -> str:
        """The plan as its file has it."""
        return json.dumps(asdict(self), indent=2) + "\n"

    @property
    def head(self) -> list[str]:
        """The columns of a row, but for the number of the run."""
        leg = ["leg", "leg_seed"] if self.legs is not None else []
        return [*self.sets, "seed", *leg, "events", "abandoned", *self.of_course]

    @property
    def of_course(self) -> list[str]:
        """The columns of a run's course behind the abandoned attempts."""
        return ["aeps", *([DRIFT] if self.drift else []), *self.columns]


@dataclass(frozen=True)
class PlannedRun:
    """A run of a sweep: its number, from 1 on, the values that are set, and its seed."""

    number: int
    values: dict[str, str]
    seed: int

    def values_text(self) -> str:
        """The values in words."""
        return ", ".join(f"{name}={value}" for name, value in self.values.items())


@dataclass(frozen=True)
class Sweep(Inputs):
    """The folder of a sweep."""

    @cached_property
    def plan(self) -> Plan:
        """The plan. Refuses one of another form, and one whose world or elements were changed."""
        path = self.path / PLAN
        if not self.is_planned:
            raise LabError(f"{self.path}: no sweep was planned there: it has no file {PLAN}")
        text = read_text(path)
        plan = plan_of(path, text)
        if plan.text() != text:
            raise LabError(f"{path}: not as the lab wrote it")
        changed = self.other(plan.world, plan.elements)
        if changed is not None:
            raise LabError(f"{changed}: not as it was when the sweep was planned")
        return plan

    @property
    def is_planned(self) -> bool:
        """Whether a plan is there."""
        return (self.path / PLAN).exists()

    @cached_property
    def world(self) -> World:
        """The world that the runs vary."""
        return World.read(self.start)

    def folder(self, number: int) -> Path:
        """What a run has come to; the folder is there if the run is over."""
        return self.path / RUNS / f"{number:05}"

    def run(self, number: int) -> PlannedRun:
        """The run of a number. Refuses one that the sweep hasn't."""
        if not 1 <= number <= self.plan.runs:
            raise LabError(f"{self.path}: the sweep has the runs 1 to {self.plan.runs}, and no run {number}")
        place, turn = divmod(number - 1, self.plan.repeat)
        chosen: dict[str, str] = {}
        for names in reversed(self.plan.together):
            place, at = divmod(place, len(self.plan.sets[names[0]]))
            chosen |= {name: self.plan.sets[name][at] for name in names}
        values = {name: chosen[name] for name in self.plan.sets}
        return PlannedRun(number, values, nth(self.plan.seed, self.most_tiles, turn * (self.plan.legs or 1)))

    @property
    def most_tiles(self) -> int:
        """The greatest number of tiles of a run. Seeds are so far apart that no two runs or legs share one."""
        return max([self.world.tiles, *map(product, self.plan.sets.get("tiles", []))])

    def seed_of(self, run: PlannedRun, leg: int) -> int:
        """The seed of a leg of a run."""
        return nth(run.seed, product(run.values["tiles"]) if "tiles" in run.values else self.world.tiles, leg - 1)

    def world_of(self, run: PlannedRun) -> bytes:
        """The world of a run, as a file has it: the copy, if nothing of it is set."""
        if not any(name in OF_WORLD or name.startswith(FILL) for name in run.values):
            return read_bytes(self.start)
        return set_world(self.world, run.values, run.seed).text().encode()

    def elements_of(self, run: PlannedRun) -> list[bytes]:
        """The element files of a run: the copies, in which the constants have their values."""
        return [with_values(read_byte_text(file), run.values).encode("latin-1") for file in self.files]

    def acts_of(self, run: PlannedRun) -> list[str]:
        """What is done to the plane before legs of a run: each name in braces is its value. Noise is an act over its whole plane."""
        acts = [in_braces(act, run.values) for act in self.plan.at]
        if self.plan.noise is not None:
            acts.append(noise(in_braces(self.plan.noise, run.values), sized(self.world, run.values)))
        return acts

    def missing(self) -> list[int]:
        """The numbers of the runs that aren't over."""
        return [number for number in range(1, self.plan.runs + 1) if not self.folder(number).is_dir()]


def product(size: str) -> int:
    """How many tiles a size has, such as 2x3."""
    across, down = size.split("x")
    return int(across) * int(down)


def in_braces(text: str, values: Mapping[str, str]) -> str:
    """A text with the values of the names that it has in braces."""
    for name, value in values.items():
        text = text.replace(f"{{{name}}}", value)
    return text


def plan_of(path: Path, text: str) -> Plan:
    """The plan that a text says. Refuses another form than this lab's."""
    try:
        found: Any = json.loads(text)
        form = found["form"]
    except (ValueError, TypeError, KeyError, RecursionError) as error:
        raise LabError(f"{path}: no plan of a sweep") from error
    if form != FORM:
        raise LabError(f"{path}: the plan has the form {form!r}, and this lab makes those of the form {FORM!r}")
    if list(found) != list(KINDS) or any(type(found[name]) not in kinds for name, kinds in KINDS.items()):
        raise LabError(f"{path}: not as the lab wrote it")
    plan = Plan(**found)
    if not goes_together(plan):
        raise LabError(f"{path}: not as the lab wrote it")
    return plan


def goes_together(plan: Plan) -> bool:
    """Whether the groups of a plan have each name that is set once, in their order, with as many values as the others of its group."""
    groups, values = plan.together, plan.sets.values()
    if not all(isinstance(it, list) and it for it in [*groups, *values]):
        return False
    return [name for names in groups for name in names] == list(plan.sets) \
        and all(len({len(plan.sets[name]) for name in names}) == 1 for names in groups)


def write_plan(sweep: Sweep, plan: Plan, world: Path, files: Sequence[Path]) -> None:
    """Writes a plan into an empty folder, or into one where this was stopped; the same plan may be there already."""
    try:
        sweep.path.mkdir(parents=True, exist_ok=True)
        others = [it.name for it in sweep.path.iterdir() if it.suffix != PART and it.name not in (START, ELEMENTS)]
    except OSError as error:
        raise LabError(f"{sweep.path}: can't be the folder of a sweep: {cause(error)}") from error
    if PLAN in others:
        refuse_other(sweep, plan)
        return
    if others:
        raise LabError(f"{sweep.path}: no sweep was planned there, and it has other files, such as {min(others)}")
    sweep.copy_in(world, files)
    sweep.settle(sweep.copies)
    sweep.write(sweep.path / PLAN, plan.text())
    sweep.settle()


def refuse_other(sweep: Sweep, plan: Plan) -> None:
    """Refuses to go on with something else than was planned."""
    was, now = asdict(sweep.plan), asdict(plan)
    for name, value in was.items():
        if value != now[name]:
            told = "" if name in ("world", "elements", "columns") else f": {json.dumps(value)}, not {json.dumps(now[name])}"
            raise LabError(f"{sweep.path}: the sweep was planned with other {name}{told}; name another folder")
