#!/usr/bin/env python3
"""What scripts find in the sources: sources.py [NAME..]. Each script can be called by itself too, and then says more."""
from __future__ import annotations

import subprocess
import sys
import unittest
from functools import partial
from pathlib import Path
from typing import Iterator, Optional

sys.dont_write_bytecode = True
from checks import Check, tried  # noqa: E402
from tree import files  # noqa: E402

HERE = Path(__file__).resolve().parent
# The scripts, with the most that they are to find.
SCRIPTS = (("no_memory",), ("waits",), ("uses",), ("statements", "--most", "5"), ("readable", "--long", "5"),
           ("long", "--functions", "5", "--files", "10"), ("limits",), ("theorem",), ("layers",))


def fault(script: str, *options: str) -> Optional[str]:
    """What a script finds, if that is too much."""
    done = subprocess.run([sys.executable, "-B", HERE / f"{script}.py", *options], stdin=subprocess.DEVNULL,
                          stdout=subprocess.PIPE, stderr=subprocess.STDOUT, text=True, check=False)
    return done.stdout if done.returncode else None


def links() -> Optional[str]:
    """The symbolic links among the files. The toolchain refuses a tree that has one."""
    found = [name for name in files() if (HERE.parent / name).is_symlink()]
    return f"symbolic links, which rt refuses: {', '.join(found)}" if found else None


def pieces() -> Optional[str]:
    """Whether some check of a part is in none of the pieces into which the driver cuts it, or in several."""
    from driver import ALONE, PARTS, piece_of

    part = PARTS["hostile"]
    names = sorted([*"abcdefghijkl", *part.alone])
    tests = [Check(name, links) for name in names]
    found = [piece_of("hostile", tests, number) for number in [*range(part.pieces), ALONE]]
    wrong = sorted(test.id() for piece in found for test in piece) != names or len(found[-1]) != len(part.alone)
    return f"of {names} the pieces have {[[test.id() for test in piece] for piece in found]}" if wrong else None


class Shared(unittest.TestCase):
    """Three tests whose class is left out. They are tried by `left_out` alone."""

    @classmethod
    def setUpClass(cls) -> None:
        raise unittest.SkipTest("no such tool")

    def test_a(self) -> None:
        """Never tried."""

    test_b = test_c = test_a


def left_out() -> Optional[str]:
    """Whether what is left out isn't counted by its reason: each test of a class, a check alone, and parts of one."""
    from driver import counted

    def lacking() -> Optional[str]:
        raise unittest.SkipTest("no such tool")

    tests = [*unittest.defaultTestLoader.loadTestsFromTestCase(Shared), Check("whole", lambda: None),
             Check("alone", lacking), Check("parts", lambda: None, ["one processor", "one processor"])]
    said = counted(tried(tests, False))
    due = "2 passed, 0 failed, 4 checks left out, 2 parts of others left out (4: no such tool; 2: one processor)"
    return None if said == due else f"what was left out is told as `{said}`, not as `{due}`"


def checks(_: object) -> Iterator[Check]:
    """A check for each script, one for links, and two for the driver's pieces and for what it says of checks left out."""
    yield Check("links", links)
    yield Check("pieces", pieces)
    yield Check("left_out", left_out)
    for script, *options in SCRIPTS:
        yield Check(script, partial(fault, script, *options))


if __name__ == "__main__":
    from driver import only

    sys.exit(only("sources"))
