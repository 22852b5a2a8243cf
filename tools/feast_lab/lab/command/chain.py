"""A run as long as you like, as a chain of legs.

A run makes at most 1,000,000 attempts over all tiles. In a chain each run, a leg, begins with the atoms that the leg before
left, and makes the attempts that WORLD says (`attempts K` for each tile). The program makes as many legs as it can in one
call, from a chain file (docs/chains.md) that the lab writes. DIR then has

  course.csv      for each leg: its attempts, events and abandoned attempts; aeps, the events per live
                  site in all legs so far; how many atoms of each element it left; and what --count, --mean,
                  --sum, --min and --max measure of them. Leg 0 is the start.
  legs.gz         with --keep reports the reports of all legs, in short; else the atoms that legs left
                  (`./lab unpack DIR` writes it, or a leg of it, in one form or another)
  acts.txt        what was done before legs by --at and --noise, one act in a line

and copies of the world and the element files, with which the legs are run. To course.csv and legs.gz is only added. A chain
that was stopped, at whatever moment, goes on if the same command is given again, also with more legs. Another world, other
elements or other options are refused. New measures are added to the course, for the legs that are done too.
With --until the chain is over once the rule holds at the end of a leg, or at the start.

Without --keep reports the atoms at the end of each leg are kept; with --atoms N those of each N-th leg and of the last.

Seeds: leg k takes the seed S + (k - 1) * (tiles + 2), modulo 2^64, where S is that of --seed or else
of WORLD. Tile t draws from the seed + t, the order of a stepped leg is drawn from the seed + tiles, and acts from the
seed + tiles + 1, so no two of these share a seed. An `order` line of WORLD is not used.

--at says what is done to the atoms before a leg, or how many attempts a leg makes. It may be given several times,
and to a chain that was begun already, for a leg that is still to come. The forms are

  LEG:clear:X,Y,W,H                    no atoms are left in W by H sites, from column X and row Y on
  LEG:put:Element:member=V,..:X,Y,W,H  each of these sites has an atom whose members have these values, and 0 for
                                       all others (or LEG:put:Element:X,Y,W,H)
  LEG:erase:P:X,Y,W,H                  each atom there vanishes with the probability P
  LEG:flip:P:X,Y,W,H                   of each atom there, with the probability P, one of its 71 bits is changed
  LEG:attempts:K                       in this leg alone each tile makes K attempts

With every:K in the place of LEG (but for attempts) it is done before each leg whose number K divides. --noise P stands for
every:1:flip:P over the whole plane. A site is X,Y, and several places have `+` between them: 3,4+0,8,16,2. P has at most
nine digits behind its point. Before a leg, acts with `every` come first, and then those of the leg, in their order.

With --failures each event is made again in Python, which takes much longer than the run, and the course has a column
`failed`: how many events of each leg did (`./lab failures DIR` says which, and why). Once it is there it is filled for
further legs too. Of legs that are done it takes the reports. If the program makes an event otherwise than the lab, the
status is 1. With --drift the course has a column `drift`: how far a tile was ahead of the slowest at the worst moment of the
leg, as a part of its events. Of legs that are done this takes the reports, too.

--audit has the program audit the chain, in parts side by side (--jobs N of them), and tests that course.csv is what the
reports say. It writes `yes` or `no` with the first leg at fault, and ends with 0 or 1. With --leg K it does so for leg K
alone, or for the start if K is 0. If it says `yes` for the start and for each leg, it does for the whole chain.

--from OLD K begins the chain DIR as a branch of another: its legs up to K are copies of the legs of OLD, and it goes on
from there with the same world, elements and seeds, and with acts of its own. So the two differ by the acts alone.
"""
import argparse
from dataclasses import replace
from pathlib import Path

from ..base.errors import LabError
from ..base.progress import ProgressLine, Stop
from ..chain.acts import noise
from ..chain.audit import first_fault, processors
from ..chain.branch import Origin
from ..chain.folder import Folder
from ..chain.making import WantedChain, made
from ..chain.start import Options
from ..measure.until import FORM
from ..worlds.starting import drawn_world
from .alone import Alone
from .options import add_measure_options
from .verdicts import status_of, verdict


def add_arguments(parser: argparse.ArgumentParser) -> None:
    """The words of the verb."""
    auditing = parser.add_argument("--audit", metavar="DIR", type=Path, action=Alone,
                                   help="audit the chain of DIR, and do nothing else")
    parser.add_argument("--leg", metavar="K", type=int, help="with --audit: audit this leg alone")
    parser.add_argument("--jobs", metavar="N", type=int, help="with --audit: how many parts are audited side by side")
    branching = parser.add_argument("--from", metavar=("OLD", "K"), dest="origin", nargs=2, action=Alone,
                                    help="begin with the legs up to K of another chain")
    folder = parser.add_argument("folder", metavar="DIR", type=Path,
                                 help="the folder of the chain; it is made if it isn't there")
    legs = parser.add_argument("--legs", metavar="N", type=int, required=True, help="the number of legs in all")
    parser.add_argument("--step", action="store_true", help="stepped legs, on one thread; else each tile has a thread")
    parser.add_argument("--seed", metavar="S", type=int, help="the seed of the first leg")
    parser.add_argument("--keep", choices=["none", "reports"], default="none", help="keep the report of each leg")
    parser.add_argument("--atoms", metavar="N", type=int, default=1, help="without --keep reports: keep the atoms of each N-th leg")
    parser.add_argument("--at", metavar="LEG:ACT", action="append", default=[],
                        help="what is done to the atoms before a leg, as above; may be given several times")
    parser.add_argument("--noise", metavar="P", help="before each leg, change a bit of each atom with this probability")
    parser.add_argument("--until", metavar="RULE", help=f"stop after the first leg at whose end this holds: {FORM}")
    add_measure_options(parser)
    parser.add_argument("--failures", action="store_true", help="find the events that failed, for a column of the course")
    parser.add_argument("--drift", action="store_true", help="find how far tiles were apart, for a column of the course")
    inputs = [parser.add_argument("world", metavar="WORLD", type=Path, help="the world to begin with"),
              parser.add_argument("files", metavar="FILE", type=Path, nargs="+", help="the element files")]
    setattr(auditing, "needless", [folder, legs, *inputs])
    setattr(branching, "needless", inputs)


def run(arguments: argparse.Namespace) -> int:
    """Begins a chain, or goes on with it; or audits one."""
    if arguments.audit is not None:
        jobs = processors() if arguments.jobs is None else arguments.jobs
        if jobs < 1:
            raise LabError(f"--jobs {jobs}: it has to be at least 1")
        return verdict(first_fault(Folder(arguments.audit), arguments.leg, ProgressLine(), jobs))
    for option in ("leg", "jobs"):
        if getattr(arguments, option) is not None:
            raise LabError(f"--{option} {getattr(arguments, option)}: it belongs to --audit DIR")
    wanted = wanted_chain(arguments)
    if arguments.origin is not None:
        wanted = branch(arguments, wanted)
    return status_of(lambda: make(wanted))


def wanted_chain(arguments: argparse.Namespace) -> WantedChain:
    """What the words say of the chain."""
    at = list(arguments.at)
    if arguments.noise is not None:
        world = arguments.world or Folder(Path(arguments.origin[0])).start
        at.append(noise(arguments.noise, drawn_world(world)))
    options = Options(arguments.step, arguments.seed, arguments.keep, arguments.atoms, at)
    return WantedChain(arguments.folder, arguments.world, arguments.files, arguments.legs, options, arguments.until, arguments.measures,
                       arguments.failures, arguments.drift)


def branch(arguments: argparse.Namespace, wanted: WantedChain) -> WantedChain:
    """Begins the chain as a branch of another. Refuses words for what a branch takes from that."""
    path, last = arguments.origin
    origin = Origin.of(Path(path))
    if arguments.world is not None or wanted.options != replace(Options(), at=wanted.options.at):
        raise LabError(f"--from: the branch takes its world, its elements, --step, --seed, --keep and --atoms from {origin.folder.path}")
    return origin.branch(last, wanted)


def make(wanted: WantedChain) -> None:
    """Begins a chain, or goes on with it, and tells how far it has come."""
    course = made(wanted, ProgressLine(), Stop(), is_lasting=True)
    print(course.summary(wanted.folder))
    for text in wanted.options.at:
        leg = 0 if text.startswith("every:") else int(text.partition(":")[0])
        if leg >= len(course.legs):
            print(f"--at {text}: still to come; the chain has {len(course.legs) - 1} legs so far, and --legs {leg} or more does it")
