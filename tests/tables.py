#!/usr/bin/env python3
"""Tries the tables of tests/tables against a program: tables.py PROGRAM [SUBJECT..].

Each row is a call over small files, with its status and what it writes, byte for byte, or two calls that write
the same. The subjects:

  tokens        texts that have no tokens, and numbers
  grammar       texts that are not in the grammar, and how deep texts may nest
  readings      texts that are read as others, whose groups are written out
  names         texts that break a rule on names, and how many names there may be
  classes       the bits of classes and of their data members
  bases         which members and functions heirs have, and where faults of bases are told
  stages        which of two faults is told
  typing_rules  bodies that have types, and bodies that have none
  codes         files with the code of their elements
  code_files    code files a byte away from a good one
  stack_codes   which small codes are valid, and what they leave
  number_ends   where numbers end, and casts
  arithmetic    what operators make of numbers and of bits
  worlds        worlds a fault away from a good one
  reports       reports a fault away from a good one
  calls         whole calls of each form
"""
from __future__ import annotations

import importlib
import pathlib
import sys
from functools import partial
from typing import Iterator

HERE = pathlib.Path(__file__).resolve().parent
sys.dont_write_bytecode = True
sys.path.insert(0, str(HERE / "tables"))

from checks import Check  # noqa: E402

SUBJECTS = (
    "tokens grammar readings names classes bases stages typing_rules codes code_files stack_codes number_ends arithmetic "
    "worlds reports calls"
).split()


def checks(program: pathlib.Path) -> Iterator[Check]:
    """A check for each row of each table, by its number from 1."""
    for subject in SUBJECTS:
        for number, row in enumerate(importlib.import_module(subject).rows(), 1):
            yield Check(f"{subject}/{number}", partial(row.fault, str(program)))


if __name__ == "__main__":
    from driver import only

    sys.exit(only("tables"))
