#!/usr/bin/env python3
"""Drives a program as a hostile user would: hostile.py [--long] PROGRAM [TABLE..].

The tables are the modules of tests/hostile:

  words     words that are no text, empty and long words, other names of the program
  edge      files that can't be loaded, standard output that takes nothing or a part
  memory    each request for memory refused in turn, small address spaces
  elements  element files at their limits and past them, and what never ends
  bases     element files of a mebibyte with bases of each bad kind, by their time and memory
  texts     worlds, reports and code files of hostile lines and of the greatest length
  fronts    texts cut behind each line and byte, and texts with a change
  workers   runs with a worker for each tile, each report checked
  chains    output, inputs and memory that end between the legs of a chain; a great many legs, and acts over all

`--long` tries the whole of each table, and without it what takes some seconds. docs/reliability.md
has the figures.
"""
from __future__ import annotations

import argparse
import contextlib
import importlib
import io
import pathlib
import sys
import time
from functools import partial
from typing import Iterator, Optional

HERE = pathlib.Path(__file__).resolve().parent
sys.dont_write_bytecode = True
sys.path[0:0] = [str(HERE.parent / "tools"), str(HERE / "hostile")]

from bench import Bench  # noqa: E402
from checks import Check  # noqa: E402

TABLES = ["words", "edge", "memory", "elements", "bases", "texts", "fronts", "workers", "chains"]


def fault(program: str, long: bool, table: str, left_out: Optional[list[str]] = None) -> Optional[str]:
    """Runs a table, which prints its figures and what did not hold, and says how much did not. Why parts of it are left
    out is added to `left_out`."""
    bench = Bench(program, long)
    bench.title = table
    begin = time.monotonic()
    print(f"{table}:", flush=True)
    try:
        getattr(importlib.import_module(table), table)(bench)
    finally:
        bench.close()
        if left_out is not None:
            left_out += bench.left_out
    seconds = time.monotonic() - begin
    print(f"{table}: {bench.held} held, {len(bench.faults)} did not, in {seconds:.0f} s", flush=True)
    return f"{len(bench.faults)} did not hold" if bench.faults else None


def fault_apart(program: str, table: str, left_out: list[str]) -> Optional[str]:
    """The same of the quick part of a table that may be tried beside others: what it prints comes in one piece."""
    lines = io.StringIO()
    try:
        with contextlib.redirect_stdout(lines):
            return fault(program, False, table, left_out)
    finally:
        print(lines.getvalue(), end="", flush=True)


def checks(program: pathlib.Path) -> Iterator[Check]:
    """A check for the quick part of each table."""
    for table in TABLES:
        left_out: list[str] = []
        yield Check(table, partial(fault_apart, str(program), table, left_out), left_out)


def main() -> int:
    """The command."""
    parser = argparse.ArgumentParser(description="Drives a program as a hostile user would.")
    parser.add_argument("--long", action="store_true", help="try the whole of each table")
    parser.add_argument("program", help="the program")
    parser.add_argument("tables", metavar="TABLE", nargs="*", help=f"these tables alone, of {', '.join(TABLES)}")
    given = parser.parse_args()
    lost = sorted(set(given.tables) - set(TABLES))
    if lost:
        parser.error(f"there is no table {', '.join(lost)}")
    faults = [fault(given.program, given.long, table) for table in given.tables or TABLES]
    return 1 if any(faults) else 0


if __name__ == "__main__":
    sys.exit(main())
