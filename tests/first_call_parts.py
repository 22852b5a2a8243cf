"""Tests of the parts of tools/first_call that need no repository; tests/first_call.py runs them with its own."""
from __future__ import annotations

import itertools
import os
import pathlib
import signal
import sys
import tempfile
import time
import unittest
from contextlib import suppress
from unittest import mock

TOP = pathlib.Path(__file__).resolve().parent.parent
sys.path.insert(0, str(TOP / "tools"))

from first_call.crates import Crate, chains, crates_of_program  # noqa: E402
from first_call.machine import Child, end  # noqa: E402
from first_call.toolchain import Toolchain  # noqa: E402

FAKES = TOP / "tests" / "fakes" / "bin"


class Crates(unittest.TestCase):
    """The crates, and which of them others wait for."""

    def test_longest_chain_counts(self) -> None:
        low, beside = Crate("low", TOP, ()), Crate("beside", TOP, ())
        high, top = Crate("high", TOP, ("low",)), Crate("top", TOP, ("low", "beside", "high"))
        chain = chains([low, beside, high, top], {"low": 10.0, "beside": 5.0, "high": 20.0, "top": 10.0})
        self.assertEqual(chain, {"low": 40.0, "beside": 15.0, "high": 30.0, "top": 10.0})

    def test_weight_of_a_crate(self) -> None:
        """It grows with the lines that are to be proved, and what is built counts for nothing."""
        weights = {crate.name: crate.weight for crate in crates_of_program(TOP)}
        self.assertGreater(weights["ulam_names"], weights["bit_field"])
        crate = Crate("low", pathlib.Path(self.enterContext(tempfile.TemporaryDirectory())), ())
        for name, weight in (("src/lib.rt", 1.2), ("proofs/lib.antt", 1.24), ("out/more.rt", 1.24), ("src/out/more.rt", 1.44)):
            (crate.folder / name).parent.mkdir(parents=True, exist_ok=True)
            (crate.folder / name).write_text("a line\nanother\n")
            self.assertAlmostEqual(crate.weight, weight)

    def test_toolchain_has_what_is_named_beside_crates(self) -> None:
        crate = Crate("high", TOP, ("lowest", "low"), ("low", "itoa"))
        libraries = pathlib.Path(self.enterContext(tempfile.TemporaryDirectory()))
        with mock.patch.dict(os.environ, {"PATH": f"{FAKES}:{os.environ['PATH']}", "PRETENDED": str(libraries)}):
            words = Toolchain(libraries).command(crate, 1)
        given = [word for before, word in itertools.pairwise(words) if before == "--extern"]
        kit = FAKES.parent / "rlibs"
        self.assertEqual(given, [f"std={kit}/std.rlib", f"low={libraries}/low.rlib", f"itoa={kit}/itoa.rlib"])


class Ends(unittest.TestCase):
    """What is left of commands that are ended."""

    def left_by(self, ending: str) -> Child:
        """A command that begins another one, which would stay for ten minutes and is there now, and then does something."""
        words = ["sh", "-c", f"sleep 600 & {ending}"]
        child = Child(words, TOP, sys.stderr.buffer)
        self.addCleanup(child.tell, signal.SIGKILL)
        latest = time.monotonic() + 600
        while len(sleepers(child.pid)) != 1 and time.monotonic() < latest:
            time.sleep(0.02)
        self.assertEqual(len(sleepers(child.pid)), 1)
        return child

    def test_what_a_command_began_is_ended(self) -> None:
        for ending, is_over in (("wait", False), ("exit 3", True), ("kill -KILL $$", True)):
            with self.subTest(ending):
                child = self.left_by(ending)
                if is_over:
                    child.wait(600)
                end([child])
                # (one that is ended is gone a moment later)
                latest = time.monotonic() + 30
                while sleepers(child.pid) and time.monotonic() < latest:
                    time.sleep(0.02)
                self.assertEqual(sleepers(child.pid), [])
                end([child])


def sleepers(session: int) -> list[str]:
    """The commands `sleep` of a session that are under way."""
    found = []
    for stat in pathlib.Path("/proc").glob("[0-9]*/stat"):
        with suppress(OSError):
            name, _, rest = stat.read_text(errors="replace").rpartition(")")
            state, _, _, at = rest.split()[:4]
            if name.endswith("(sleep") and int(at) == session and state != "Z":
                found.append(str(stat.parent))
    return found
