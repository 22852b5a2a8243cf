"""Runs over values of constants, over numbers of the world, and over seeds, as CSV.

Each --set names what is set, and its values, such as A,B,C or a range FIRST:LAST:STEP:
  Element.constant  a constant of a class; the run has copies of the files with its value
  attempts, size, tiles
                    the numbers of the world's lines of these names; sizes are written as 16x16
  fill.Element      a density: an empty site gets an atom of the element with this probability
  NAME              if an act of --at, or --noise, has it in braces, as in --at '5:erase:{p}:0,0,8,8' --set p=0.1,0.2
After a --set, --with names something else that is set, with as many values: these go together, one by one, as in
--set tiles=1x1,2x2 --with size=32x32,16x16, which makes two runs of one plane.
Every combination of the values is run R times, with the same seeds: S, S + L * (tiles + 2),
S + 2 * L * (tiles + 2) .. modulo 2^64, where S is that of --seed or else of WORLD, and L is the number of legs.
So no two tiles of two repetitions share a seed.

A run is a single call, or with --legs a chain of that many, to which --at, --noise, --until, --drift and the measures
belong as they do for the verb chain. A row has the values, the seed, with --legs the leg and its seed, the events and the
abandoned attempts, aeps (the events per live site), with --drift how far the tiles were apart, how many atoms of each
element there are at the end, and the measures. The rows come in the order of the values; with --legs each leg has
one, and leg 0 is the start.

Without a folder the rows go to standard output. --into DIR keeps the runs in a folder instead: sweep.json says
how they are made, sweep.csv has the rows of all, and runs/NNNNN what each came to; with --keep reports that
is a whole chain. A sweep that was stopped goes on if the same command is given again. For many machines,
--plan DIR makes the folder alone, --task DIR I makes run I of it, and --gather DIR the table. A task may be made
twice, at once or later: a run comes to its place whole, and the first one stays.

--audit DIR audits each run, and tests that each is what the plan says and that the table has their rows. It
writes `yes` or `no` with the first run at fault, and ends with 0 or 1.

Runs on one thread are made side by side, one for each processor. Runs with a thread for each tile are
made one after another. --jobs says otherwise.
"""
import argparse
import csv
import sys
import tempfile
from functools import partial
from pathlib import Path

from ..base.errors import LabError
from ..base.progress import ProgressLine, Stop
from ..chain.audit import processors
from ..measure.until import FORM as RULE_FORM
from ..sweep.check import check_runs
from ..sweep.gather import first_fault, gather, spans
from ..sweep.making import WantedSweep, made
from ..sweep.plan import TABLE, Sweep, write_plan
from ..sweep.run import make_run, rows_of
from ..sweep.values import Setting
from .alone import Alone
from .options import add_measure_options
from .verdicts import verdict


def add_arguments(parser: argparse.ArgumentParser) -> None:
    """The words of the verb."""
    where = parser.add_mutually_exclusive_group()
    where.add_argument("--into", metavar="DIR", type=Path, help="make the runs in a folder, or go on with them")
    where.add_argument("--plan", metavar="DIR", type=Path, help="make the folder of a sweep, and no run")
    alone = [
        where.add_argument("--task", metavar=("DIR", "I"), nargs=2, action=Alone, help="make run I of a sweep that is planned"),
        where.add_argument("--gather", metavar="DIR", type=Path, action=Alone, help="write sweep.csv, and name the runs that are missing"),
        where.add_argument("--audit", metavar="DIR", type=Path, action=Alone, help="audit the runs of a sweep"),
    ]
    parser.add_argument("--set", metavar="NAME=A,B,..", dest="sets", action="append", default=[], type=partial(Setting, "--set"),
                        help="values of what is set; may be given for several names")
    parser.add_argument("--with", metavar="NAME=A,B,..", dest="sets", action="append", type=partial(Setting, "--with"),
                        help="values that go with those of the --set before it, one by one")
    parser.add_argument("--repeat", metavar="R", type=int, default=1, help="how many runs each combination has")
    parser.add_argument("--legs", metavar="N", type=int, help="chains of N legs, with a row for each leg")
    parser.add_argument("--step", action="store_true", help="stepped runs, on one thread; else each tile has a thread")
    parser.add_argument("--seed", metavar="S", type=int, help="the first seed")
    parser.add_argument("--at", metavar="LEG:ACT", action="append", default=[], help="do something to the plane before a leg, as in the verb chain")
    parser.add_argument("--noise", metavar="P", help="before each leg, change a bit of each atom with this probability")
    parser.add_argument("--until", metavar="RULE", help=f"end a run after the first leg at whose end this holds: {RULE_FORM}")
    parser.add_argument("--keep", choices=["none", "reports"], default="none", help="keep each run as a chain with its reports")
    parser.add_argument("--jobs", metavar="N", type=int, help="how many runs are made, or audited, side by side")
    add_measure_options(parser)
    parser.add_argument("--drift", action="store_true", help="find how far tiles were apart, for a column of the rows")
    needless = [parser.add_argument("world", metavar="WORLD", type=Path, help="a world that draws its attempts"),
                parser.add_argument("files", metavar="FILE", type=Path, nargs="+", help="the element files")]
    for action in alone:
        setattr(action, "needless", needless)


def run(arguments: argparse.Namespace) -> int:
    """Does what is asked for with a sweep that is planned, or plans one and maybe makes its runs."""
    if arguments.jobs is not None and arguments.jobs < 1:
        raise LabError(f"--jobs {arguments.jobs}: it has to be at least 1")
    if arguments.task is not None:
        return task(Sweep(Path(arguments.task[0])), arguments.task[1])
    if arguments.gather is not None:
        return gathered(Sweep(arguments.gather))
    if arguments.audit is not None:
        return verdict(first_fault(Sweep(arguments.audit), ProgressLine(), arguments.jobs or processors()))
    folder = arguments.into or arguments.plan
    if folder is None and arguments.keep != "none":
        raise LabError(f"--keep {arguments.keep}: it takes a folder: --into DIR or --plan DIR")
    plan = wanted_sweep(arguments).plan()
    with tempfile.TemporaryDirectory() as room:
        sweep = Sweep(folder or Path(room) / "sweep", is_lasting=folder is not None)
        if not sweep.is_planned:
            check_runs(plan, arguments.world, arguments.files, ProgressLine())
        write_plan(sweep, plan, arguments.world, arguments.files)
        if arguments.plan is not None:
            print(f"{sweep.path}: {plan.runs} runs, 1-{plan.runs}")
            return 0
        jobs = jobs_of(arguments, sweep)
        if arguments.into is None:
            write_rows(sweep, jobs)
            return 0
        for _ in made(sweep, sweep.missing(), jobs, ProgressLine()):
            pass
        return gathered(sweep)


def wanted_sweep(arguments: argparse.Namespace) -> WantedSweep:
    """What the words say of a sweep."""
    return WantedSweep(arguments.world, arguments.files, arguments.sets, arguments.repeat, arguments.legs, arguments.step,
                       arguments.seed, arguments.at, arguments.until, arguments.keep, arguments.measures, arguments.drift,
                       arguments.noise)


def gathered(sweep: Sweep) -> int:
    """Has the table written, and names the runs that are missing; gives back 1 if there are some."""
    missing, runs = gather(sweep, ProgressLine()), sweep.plan.runs
    print(f"{sweep.path / TABLE}: {runs - len(missing)} of {runs} runs")
    if missing:
        print(f"missing: {spans(missing)}", flush=True)
    return 1 if missing else 0


def task(sweep: Sweep, text: str) -> int:
    """Makes one run."""
    if not text.isdecimal():
        raise LabError(f"--task {sweep.path} {text}: {text} is no number of a run")
    wanted = sweep.run(int(text))
    was_there = sweep.folder(wanted.number).is_dir()
    make_run(sweep, wanted, Stop())
    print(f"{sweep.folder(wanted.number)}: {'was there' if was_there else 'made'}")
    return 0


def jobs_of(arguments: argparse.Namespace, sweep: Sweep) -> int:
    """How many runs are made side by side."""
    is_one_thread = arguments.step or sweep.most_tiles == 1
    jobs: int = arguments.jobs or (processors() if is_one_thread else 1)
    return jobs


def write_rows(sweep: Sweep, jobs: int) -> None:
    """Makes all runs, and writes the rows of each to standard output as soon as those before it are there."""
    out = csv.writer(sys.stdout, lineterminator="\n")
    out.writerow(sweep.plan.head)
    for done in made(sweep, range(1, sweep.plan.runs + 1), jobs, ProgressLine()):
        out.writerows(rows_of(sweep, done))
        sys.stdout.flush()
