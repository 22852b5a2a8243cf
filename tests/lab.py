#!/usr/bin/env python3
"""Tries the lab: lab.py [PROGRAM] [NAME..].

PROGRAM is that of ./feast if none is named. A NAME is that of a module of tests/lab, such as test_chain, or of
a class or a test in one; all are run if none is named.
"""
import sys
import unittest
from collections.abc import Iterator
from pathlib import Path

sys.dont_write_bytecode = True
HERE = Path(__file__).resolve().parent


def checks(_: Path) -> Iterator[unittest.TestCase]:
    """The tests of tests/lab."""
    from checks import flat

    sys.path.insert(0, str(HERE / "lab"))
    yield from flat(unittest.TestLoader().discover(str(HERE / "lab")))


if __name__ == "__main__":
    from driver import only

    sys.exit(only("lab"))
