#!/usr/bin/env python3
"""Tries the tests of the repository: driver.py [-k WORD].. [--program FILE] [--times N] [--list] [PART..].

The parts, in the order in which they are begun:

  lab         the lab
  hostile     the quick part of hostile use
  pages       the pages: links, paths, files, commands and what they write
  python      what a type checker and a linter find in Python, where they are there
  first_call  ./feast where the program has to be proved first, on a toolchain that only pretends
  dist        dist/ is of the sources that lie here; which program is taken, on small repositories that only pretend
  cases       the cases of tests/cases
  tables      the tables of tests/tables
  errors      the examples of docs/errors.md
  audits      audits of the reports of the cases
  chains      chains of runs, beside a model that makes each leg as a world of its own
  recheck     the second reader of tools/recheck, against tables, cases and the program
  drawn       a thousand drawn cases, asked of the program and of the second reader
  edits       each crate has its edits that the check must refuse, each can be applied, and they show its public calls
  sources     what scripts find in the sources: answers of NoMemory, libraries, statements, clauses, limits
  release     tools/release, and the released folder used without the kit
  editors     the files for editors: colours of each token, places of refusals

As many parts are tried side by side as there are processors; long ones are cut into pieces for that. What looks at times
is tried by itself at the end.

A check is named PART/NAME. `-k` chooses those whose names have the word in them, or match it if it has a `*`; it may be
given several times. The program is the one that ./feast would run, or the one that FEAST_PROGRAM names. The last line counts
all checks, and what was left out, by reason; the status is 1 if one failed.
"""
from __future__ import annotations

import argparse
import concurrent.futures
import importlib.util
import itertools
import json
import multiprocessing
import os
import signal
import sys
import time
import unittest
from collections import Counter
from dataclasses import dataclass, replace
from pathlib import Path
from types import ModuleType
from typing import Iterator, Optional, Sequence

HERE = Path(__file__).resolve().parent
TOP = HERE.parent
sys.dont_write_bytecode = True
# (a package of tools is called `first_call` as a file is here: tools goes first, and parts have other names)
sys.path[0:0] = [str(TOP / "tools"), str(HERE)]

from checks import Check, Choice, Outcome, reasons, tried  # noqa: E402
from feast_lab.lab.base.errors import LabError  # noqa: E402
from feast_lab.lab.base.program import Program  # noqa: E402


@dataclass(frozen=True)
class Part:
    """A part of the tests: its file, whether it wants the program, whether several of its checks may be tried at once,
    into how many pieces it is cut, and the checks that have to be tried by themselves. The file has `checks`, which gives
    the checks of the part for a program."""

    file: str
    wants_program: bool = True
    aside: bool = False
    pieces: int = 1
    alone: tuple[str, ...] = ()


# The parts, the longest first, so that no long piece is begun at the end.
PARTS = {
    "lab": Part("lab.py", pieces=16),
    "hostile": Part("hostile.py", pieces=8, alone=("bases", "workers")),
    "pages": Part("pages.py", pieces=6),
    "python": Part("python_code.py", wants_program=False, pieces=2),
    "first_call": Part("first_call.py", wants_program=False, aside=True),
    "dist": Part("dist.py", wants_program=False, aside=True),
    "cases": Part("run.py", aside=True),
    "tables": Part("tables.py", aside=True),
    "errors": Part("errors.py", aside=True),
    "audits": Part("audits.py", aside=True),
    "recheck": Part("second_reader.py", pieces=4),
    "chains": Part("models/chains.py", pieces=4),
    "drawn": Part("drawn.py", pieces=4),
    "edits": Part("edits.py", wants_program=False),
    "sources": Part("sources.py", wants_program=False, aside=True),
    "release": Part("release.py", aside=True),
    "editors": Part("editors.py", wants_program=False, aside=True),
}
# How many pieces are tried side by side at most.
SIDE_BY_SIDE = 8
# In place of the number of a piece: all of a part, or what has to be tried by itself.
WHOLE, ALONE = -1, -2


def module_of(part: str) -> ModuleType:
    """The module of a part, under a name that no other module has."""
    spec = importlib.util.spec_from_file_location(f"part_{part}", HERE / PARTS[part].file)
    assert spec is not None and spec.loader is not None
    module = importlib.util.module_from_spec(spec)
    sys.modules[spec.name] = module
    spec.loader.exec_module(module)
    return module


def key_of(test: unittest.TestCase) -> object:
    """What tests have in common that stay together: their class, which may make something for all of them."""
    return test.id() if isinstance(test, Check) else type(test)


def piece_of(part: str, tests: Sequence[unittest.TestCase], number: int) -> list[unittest.TestCase]:
    """The tests of a part that are in one of its pieces."""
    if number == WHOLE:
        return list(tests)
    # (by their names, since unittest takes all tests of a class and a method for equal)
    is_alone = [test.id() in PARTS[part].alone for test in tests]
    if number == ALONE:
        return list(itertools.compress(tests, is_alone))
    side = (test for test, by_itself in zip(tests, is_alone) if not by_itself)
    groups = [list(group) for _, group in itertools.groupby(side, key_of)]
    return [test for group in groups[number :: PARTS[part].pieces] for test in group]


def outcomes_of(part: str, program: Optional[Path], choice: Choice, number: int = WHOLE, is_list: bool = False) -> list[Outcome]:
    """Tries the chosen checks of a piece of a part, in this process; their names alone, if that is asked for."""
    signal.signal(signal.SIGINT, signal.default_int_handler)
    if program:
        os.environ["FEAST_PROGRAM"] = str(program)
    front = f"part_{part}."
    tests = piece_of(part, list(module_of(part).checks(program)), number)
    chosen = [test for test in tests if choice.takes(part, test.id().removeprefix(front))]
    outcomes = [Outcome(test.id(), 0.0) for test in chosen] if is_list else tried(chosen, PARTS[part].aside)
    return [replace(outcome, name=outcome.name.removeprefix(front)) for outcome in outcomes]


def timed(part: str, program: Optional[Path], choice: Choice, number: int, is_list: bool) -> tuple[list[Outcome], float]:
    """The same, with how many seconds that took."""
    start = time.monotonic()
    return outcomes_of(part, program, choice, number, is_list), time.monotonic() - start


Tried = tuple[str, list[Outcome], float]


def apart(parts: Sequence[str], program: Optional[Path], choice: Choice, is_list: bool) -> Iterator[Tried]:
    """Tries parts, each piece in a process of its own, since modules of several parts have one name; gives each part with
    its outcomes and the seconds of its pieces as soon as it is over."""
    side = [(part, number) for part in parts for number in ([WHOLE] if is_list else range(PARTS[part].pieces))]
    last = [(part, ALONE) for part in parts if PARTS[part].alone and not is_list]
    open_pieces = Counter(part for part, _ in [*side, *last])
    outcomes: dict[str, list[Outcome]] = {part: [] for part in parts}
    seconds = dict.fromkeys(parts, 0.0)
    for pieces, lanes in ((side, min(len(os.sched_getaffinity(0)), SIDE_BY_SIDE)), (last, 1)):
        context = multiprocessing.get_context("spawn")
        with concurrent.futures.ProcessPoolExecutor(lanes, context, max_tasks_per_child=1) as pool:
            begun = {pool.submit(timed, part, program, choice, number, is_list): part for part, number in pieces}
            for done in concurrent.futures.as_completed(begun):
                part = begun[done]
                found, gone = done.result()
                outcomes[part] += found
                seconds[part] += gone
                open_pieces[part] -= 1
                if open_pieces[part] == 0:
                    yield part, outcomes[part], seconds[part]


def told(part: str, outcomes: Sequence[Outcome], seconds: float) -> None:
    """Prints what is wrong in a part, and a line of what was tried."""
    for outcome in outcomes:
        if outcome.fault:
            print(f"FAILED {part}/{outcome.name}: {outcome.fault}")
    print(f"{part}: {counted(outcomes)}, in {seconds:.0f} s", flush=True)


def counted(outcomes: Sequence[Outcome]) -> str:
    """How many checks passed, failed and were left out, and how many of these, and of parts of others, for each reason."""
    failed = sum(bool(it.fault) for it in outcomes)
    left_out = sum(bool(it.left_out and not it.fault) for it in outcomes)
    parts = sum(len(it.parts) for it in outcomes)
    said = [f"{count} {what}{'s' * (count > 1)}{of} left out"
            for count, what, of in ((left_out, "check", ""), (parts, "part", " of others")) if count]
    why = "; ".join(f"{count}: {reason}" for reason, count in sorted(reasons(outcomes).items()))
    return ", ".join([f"{len(outcomes) - failed - left_out} passed", f"{failed} failed", *said]) + (f" ({why})" if why else "")


def note(outcomes: Sequence[Outcome], path: Optional[Path]) -> None:
    """Puts into a file, if one is named, how often each reason stands for what was left out."""
    if path:
        path.write_text(json.dumps(reasons(outcomes), indent=2, sort_keys=True) + "\n")


def slowest(found: Sequence[tuple[str, Outcome]], most: int) -> None:
    """Prints the checks that took longest."""
    for part, outcome in sorted(found, key=lambda it: -it[1].seconds)[:most]:
        print(f"{outcome.seconds:8.2f} s  {part}/{outcome.name}")


def parser() -> argparse.ArgumentParser:
    """The words of the command."""
    made = argparse.ArgumentParser(description=__doc__, formatter_class=argparse.RawDescriptionHelpFormatter)
    made.add_argument("parts", metavar="PART", nargs="*", help="these parts alone")
    made.add_argument("-k", dest="words", metavar="WORD", action="append", default=[], help="the checks with this word")
    made.add_argument("--program", type=Path, metavar="FILE", help="this program, in place of that of ./feast")
    made.add_argument("--without-program", action="store_true", help="the parts that want no program")
    made.add_argument("--times", type=int, default=0, metavar="N", help="at the end, the N checks that took longest")
    made.add_argument("--left-out", type=Path, metavar="FILE", help="puts into FILE what was left out, counted by reason")
    made.add_argument("--list", action="store_true", help="the names of the checks, which are not tried")
    return made


def program_for(given: Optional[Path], parts: Sequence[str]) -> Optional[Path]:
    """The program for these parts, None if they want none. LabError if there is none that was proved of the sources."""
    if not any(PARTS[part].wants_program for part in parts):
        return None
    if given:
        os.environ["FEAST_PROGRAM"] = str(given.resolve())
    return Program.find().path


def main() -> int:
    """The command: the status is 1 if a check failed or none was chosen, and 2 for words that it doesn't know."""
    words = parser()
    given = words.parse_args()
    parts = given.parts or [part for part in PARTS if not (given.without_program and PARTS[part].wants_program)]
    lost = sorted(set(parts) - set(PARTS))
    if lost:
        words.error(f"there is no part {', '.join(lost)}")
    try:
        program = program_for(given.program, parts)
    except LabError as fault:
        print(f"driver.py: {fault}", file=sys.stderr)
        return 1
    return run(parts, program, given)


def run(parts: Sequence[str], program: Optional[Path], given: argparse.Namespace) -> int:
    """Tries parts, and prints what came of them."""
    begin = time.monotonic()
    found: list[tuple[str, Outcome]] = []
    for part, outcomes, seconds in apart(parts, program, Choice(words=tuple(given.words)), given.list):
        found += [(part, outcome) for outcome in outcomes]
        if given.list:
            print(*(f"{part}/{outcome.name}" for outcome in outcomes), sep="\n")
        elif outcomes:
            told(part, outcomes, seconds)
    if given.list:
        return 0
    slowest(found, given.times)
    everything = [outcome for _, outcome in found]
    print(f"in all: {counted(everything)}, in {time.monotonic() - begin:.0f} s")
    note(everything, given.left_out)
    return 1 if not found or any(outcome.fault for outcome in everything) else 0


def only(part: str) -> int:
    """The command of a script that tries one part: [PROGRAM] [NAME..], where a NAME chooses the check of that name and
    those whose names begin with it and a `/` or a `.`."""
    made = argparse.ArgumentParser(description=sys.modules["__main__"].__doc__,
                                   formatter_class=argparse.RawDescriptionHelpFormatter)
    if PARTS[part].wants_program:
        made.add_argument("program", metavar="PROGRAM", type=Path, nargs="?", help="the program; else that of ./feast")
    made.add_argument("names", metavar="NAME", nargs="*", help="these checks alone")
    given = made.parse_args()
    try:
        program = program_for(getattr(given, "program", None), [part])
    except LabError as fault:
        made.error(str(fault))
    start = time.monotonic()
    outcomes = outcomes_of(part, program, Choice(names=tuple(given.names)))
    told(part, outcomes, time.monotonic() - start)
    return 1 if not outcomes or any(outcome.fault for outcome in outcomes) else 0


if __name__ == "__main__":
    sys.exit(main())
