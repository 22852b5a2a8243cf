"""Sweeps, as `./lab sweep` makes them: runs over values and seeds, and their rows as one array."""
import os
from collections.abc import Mapping, Sequence
from decimal import Decimal
from pathlib import Path
from tempfile import TemporaryDirectory
from typing import Any

from .lab.base.errors import LabError
from .lab.base.limits import MOST_COLUMNS
from .lab.formats.layout import Layout
from .lab.measure.measures import measures_of
from .lab.measure.until import FUNCTION
from .lab.sweep.check import check_runs
from .lab.sweep.making import WantedSweep, made
from .lab.sweep.plan import Sweep as Made, write_plan
from .lab.sweep.run import rows_of
from .lab.sweep.values import Setting

from . import arrays
from .arrays import Array
from .asked import Until, asked
from .chains import Chain, kind_of, number_of
from .closing import Closing
from .measured import Measure, said, with_columns
from .programs import Paths, found, plain_names
from .runs import elements_of, world_file
from .waiting import Hearer, reporter
from .worlds import World

Sets = Mapping[str | tuple[str, ...], Sequence[object]]
TRUTH = {"true": True, "false": False}


class Sweep(Closing):
    """The sweep of a folder, as far as its runs are made. Closed, its folder is gone if it has none of its own."""

    def __init__(self, folder: str | Path, *, program: str | Path | None = None, room: TemporaryDirectory[str] | None = None) -> None:
        """The sweep that was planned in a folder. `room` is what the folder lies in if it goes away with this object."""
        super().__init__(room)
        self._folder = Made(Path(folder))
        self.plan = self.folder.plan
        self.layout = Layout.of(found(program), self.folder.files)

    @property
    def folder(self) -> Made:
        """Its folder."""
        self.refuse_gone("the sweep")
        return self._folder

    def __repr__(self) -> str:
        if self.is_gone:
            return "<Sweep, closed>"
        missing = self.missing
        where = "of" if self.is_passing else f"{self.folder.path}:"
        return f"<Sweep {where} {len(self):,} runs{f', {len(missing):,} of them missing' if missing else ''}>"

    def __len__(self) -> int:
        return self.plan.runs

    @property
    def missing(self) -> list[int]:
        """The numbers of the runs that aren't made yet; they count from 1."""
        return self.folder.missing()

    @property
    def rows(self) -> Array:
        """What the runs came to: a masked array with the number of the run, the columns of `sweep.csv`, and, for runs that
        are chains, a row for each leg, of which leg 0 is the start and has no seed."""
        head, missing = self.plan.head, set(self.missing)
        cells = [[str(number), *row] for number in range(1, self.plan.runs + 1) if number not in missing
                 for row in rows_of(self.folder, self.folder.run(number))]
        kinds = {"run": "i8"} | dict.fromkeys(head, "i8") | {"seed": "u8"} | ({"leg_seed": "u8"} if "leg_seed" in head else {})
        kinds |= dict.fromkeys(("aeps", *(["drift"] if self.plan.drift else [])), "f8")
        kinds |= {it.name: kind_of(it, MOST_COLUMNS ** 2) for it in measures_of(self.plan.measures, self.layout)}
        values = {name: kind_of_texts(texts) for name, texts in self.plan.sets.items()}
        rows = [{name: value_of(values[name], cell) if name in values else number_of(cell)
                 for name, cell in zip(kinds, row, strict=True)} for row in cells]
        return arrays.columns(rows, kinds | values)

    def to_pandas(self) -> Any:
        """The rows as a frame of pandas."""
        return arrays.frame(self.rows, [*self.plan.measures, *(["leg_seed"] if self.plan.legs is not None else [])])

    def measured(self, **measures: Measure) -> Array:
        """The rows with a further column for each function: what it says of the plane of the row, which is that at the end of
        its leg or, without legs, of its run. The sweep has to keep reports."""
        rows = self.rows
        chains = {run: self.chain(run) for run in sorted(set(rows["run"].tolist()))}
        legs = rows["leg"].tolist() if self.plan.legs is not None else [None] * len(rows)
        planes = (chains[run].plane(len(chains[run]) if leg is None else leg) for run, leg in zip(rows["run"].tolist(), legs))
        return with_columns(rows, said(measures, planes))

    def chain(self, run: int) -> Chain:
        """The chain of a run, counted from 1, if the sweep keeps reports."""
        if self.plan.keep != "reports":
            raise LabError(f"{self.folder.path}: the sweep keeps no reports")
        self.folder.run(run)
        if run in self.missing:
            raise LabError(f"{self.folder.path}: run {run} isn't made yet")
        return Chain(self.folder.folder(run))


def sweep(world: str | Path | World, elements: Paths | None = None, *, set: Sets | None = None, repeat: int = 1,
          legs: int | None = None, step: bool = False, seed: int | None = None, at: Sequence[str] = (), until: Until | None = None,
          measures: Sequence[str] = (), drift: bool = False, keep: str = "none", folder: str | Path | None = None,
          jobs: int | None = None, progress: Hearer = False) -> Sweep:
    """Makes the runs of a sweep, or goes on with one in a folder; the words mean what those of `./lab sweep` do.

    `set` has for each name its values, such as `{"Shark.starving": [3, 5], "fill.Fish": [0.1, 0.3], "size": [(16, 16)]}`;
    a tuple of names has tuples of values, which go together. Every combination is run `repeat` times with the same seeds.
    `until` is a rule, or a function of a plane, by whose name a folder knows it.
    Without a folder the runs go away with the sweep. `jobs` are the runs that are made side by side. With `progress` a
    line on standard error says how far it is. The program is the one that `./lab` would call.
    """
    files, told = elements_of(world, elements), reporter(progress)
    room: TemporaryDirectory[str] = TemporaryDirectory()
    path = world_file(world, Path(room.name))
    if jobs is not None and jobs < 1:
        raise LabError(f"jobs={jobs}: it has to be at least 1")
    place = Made(Path(folder) if folder is not None else Path(room.name) / "sweep", is_lasting=folder is not None)
    with plain_names():
        plan = WantedSweep(path, files, settings_of(set or {}), repeat, legs, step, seed, at, told_of(until), keep, measures, drift).plan()
        if not place.is_planned:
            check_runs(plan, path, files, told)
        write_plan(place, plan, path, files)
        side_by_side = jobs or (len(os.sched_getaffinity(0)) if step or place.most_tiles == 1 else 1)
        ends = asked(until)
        for _ in made(place, place.missing(), side_by_side, told, None if isinstance(ends, str) else ends):
            pass
    return Sweep(place.path, room=room if folder is None else None)


def told_of(until: Until | None) -> str | None:
    """What the plan of a sweep has of a rule or a function."""
    return until if until is None or isinstance(until, str) else FUNCTION + str(getattr(until, "__qualname__", type(until).__name__))


def settings_of(sets: Sets) -> list[Setting]:
    """What is set, as the options of the command have it."""
    found = []
    for names, values in sets.items():
        together = (names,) if isinstance(names, str) else tuple(names)
        rows = [(it,) if isinstance(names, str) else it if isinstance(it, tuple) else () for it in values]
        if not rows or not together:
            raise LabError(f"set: {names!r} has no values")
        if any(len(row) != len(together) for row in rows):
            raise LabError(f"set: {', '.join(together)} go together, and each of their values has to be a tuple of {len(together)}")
        for at, name in enumerate(together):
            texts = ",".join(text_of(row[at]) for row in rows)
            found.append(Setting("--with" if at else "--set", f"{name}={texts}"))
    return found


def text_of(value: object) -> str:
    """A value as an option has it."""
    if isinstance(value, bool):
        return str(value).lower()
    if isinstance(value, tuple):
        return "x".join(map(str, value))
    if isinstance(value, str):
        return value
    return f"{Decimal(str(value)):f}"


def kind_of_texts(texts: Sequence[str]) -> str:
    """NumPy's kind of a column that has these values."""
    if all(text in TRUTH for text in texts):
        return "?"
    for kind, read in (("i8", int), ("f8", float)):
        try:
            numbers = [read(text) for text in texts]
        except ValueError:
            continue
        return kind if kind == "f8" else arrays.kind_of(min(numbers), max(numbers))
    return f"U{max(map(len, texts))}"


def value_of(kind: str, text: str) -> object:
    """A value that is set, in a column of a kind."""
    if kind == "?":
        return TRUTH[text]
    return text if kind.startswith("U") else float(text) if kind == "f8" else int(text)
