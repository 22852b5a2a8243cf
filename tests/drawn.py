#!/usr/bin/env python3
"""Asks the program and the second reader of tools/recheck about drawn cases: drawn.py [--first N] [--count N] PROGRAM.

A case is made from a number, its seed, alone: element files, a world, and what is asked about them; or texts with
something broken. Both have to answer with the same bytes and the same status (docs/recheck.md). The lines say which
cases differ, and how each is seen again.

  --first N      the first seed (0)
  --count N      how many cases are tried (1)
  --lanes N      so many side by side (one for each processor)
  --keep FOLDER  tries the first case alone, whose files stay in the folder
"""
from __future__ import annotations

import argparse
import concurrent.futures
import os
import shutil
import sys
import tempfile
from functools import partial
from pathlib import Path
from typing import Iterator, Optional

HERE = Path(__file__).resolve().parent
sys.dont_write_bytecode = True
sys.path[0:0] = [str(HERE.parent / "tools"), str(HERE / "drawn"), str(HERE)]

from checks import Check  # noqa: E402
from trials import QUICK, case_fault  # noqa: E402

# So many cases are one check, and one piece of work.
TOGETHER = 50


def faults(program: Path, first: int, count: int) -> list[str]:
    """What differs in some cases, and how to see it again."""
    found = []
    for seed in range(first, first + count):
        with tempfile.TemporaryDirectory() as folder:
            fault = case_fault(program, seed, Path(folder))
        if fault:
            found.append(f"seed {seed}: {fault}; again: python3 tests/drawn.py --first {seed} --keep FOLDER {program}")
    return found


def some_fault(program: Path, first: int) -> Optional[str]:
    """What differs in the cases of one check."""
    return "\n".join(faults(program, first, TOGETHER)) or None


def checks(program: Path) -> Iterator[Check]:
    """A check for each lot of cases."""
    for first in range(0, QUICK, TOGETHER):
        yield Check(f"seeds/{first}-{first + TOGETHER - 1}", partial(some_fault, program, first))


def parser() -> argparse.ArgumentParser:
    """The words of the command."""
    made = argparse.ArgumentParser(description=__doc__, formatter_class=argparse.RawDescriptionHelpFormatter)
    made.add_argument("--first", type=int, default=0, metavar="N", help="the first seed")
    made.add_argument("--count", type=int, default=1, metavar="N", help="how many cases are tried")
    made.add_argument("--lanes", type=int, default=len(os.sched_getaffinity(0)), metavar="N", help="how many side by side")
    made.add_argument("--keep", type=Path, metavar="FOLDER", help="where the files of one case stay")
    made.add_argument("program", type=Path, metavar="PROGRAM", help="the program")
    return made


def main() -> int:
    """The command: the status is 1 if some case differs."""
    given = parser().parse_args()
    program = given.program.resolve()
    if given.keep:
        shutil.rmtree(given.keep, ignore_errors=True)
        fault = case_fault(program, given.first, given.keep.resolve())
        print(fault or f"seed {given.first}: no difference")
        return 1 if fault else 0
    lots = [(first, min(TOGETHER, given.first + given.count - first))
            for first in range(given.first, given.first + given.count, TOGETHER)]
    differing = 0
    with concurrent.futures.ProcessPoolExecutor(given.lanes) as pool:
        for found in pool.map(partial(faults, program), *zip(*lots)):
            differing += len(found)
            print(*found, sep="\n", end="\n" if found else "", flush=True)
    print(f"{given.count} cases, {differing} differ")
    return 1 if differing else 0


if __name__ == "__main__":
    sys.exit(main())
