#!/usr/bin/env python3
"""Tries `./feast` where the program has to be proved first, with a toolchain that only pretends: first_call.py [NAME..].

The repository is made in a temporary folder, with a copy of `feast` and of what it calls in tools, and five crates.
The toolchain is tests/fakes: it takes tenths of a second for a crate, and notes its calls.
"""
from __future__ import annotations

import os
import pathlib
import re
import shutil
import signal
import subprocess
import sys
import tempfile
import time
import unittest
from typing import Iterator

TOP = pathlib.Path(__file__).resolve().parent.parent
sys.dont_write_bytecode = True

from checks import flat  # noqa: E402
from feast_lab.proved.record import GATE, LAUNCHER, Record, digest_of  # noqa: E402
from feast_lab.proved.sources import digest  # noqa: E402
from first_call_parts import Crates, Ends  # noqa: E402

# (calls here are to build their own program)
os.environ.pop("FEAST_PROGRAM", None)
FAKES = TOP / "tests" / "fakes" / "bin"
CRATES = "low:\nmiddle: low itoa # stands on low\nbeside: low\nhigh: middle beside\nfeast: high low\nother: low\n"
SOURCE = "// a source\n"
# What the program of the pretended toolchain writes, and its status.
PROVED, STATUS = "proved call of", 3
# How long a call may take, in seconds; on a busy machine it may be a hundred times as long as by itself.
PATIENCE = 600


class Call:
    """A call under way, and how it ended."""

    def __init__(self, case: "FirstCall", words: list[str], **changes: str) -> None:
        environment = {name: value for name, value in os.environ.items() if name != "CI"}
        environment["PATH"] = f"{FAKES}:{environment['PATH']}"
        environment["PRETENDED"] = str(case.top)
        self.process = subprocess.Popen(
            [str(case.top / "feast"), *words],
            cwd=case.folder,
            env={**environment, **changes},
            stdout=subprocess.PIPE,
            stderr=subprocess.PIPE,
            text=True,
            start_new_session=True,
        )

    def end(self) -> tuple[int, str, str]:
        """The status, standard output and standard error."""
        out, err = self.process.communicate(timeout=PATIENCE)
        return self.process.returncode, out, err


class FirstCall(unittest.TestCase):
    """A small repository, and calls in it."""

    def setUp(self) -> None:
        self.folder = pathlib.Path(tempfile.mkdtemp(prefix="first-call-"))
        self.addCleanup(shutil.rmtree, self.folder)
        self.top = self.folder / "repository"
        self.top.mkdir()
        shutil.copy(TOP / "feast", self.top)
        for name in ("first_call", "feast_lab"):
            shutil.copytree(TOP / "tools" / name, self.top / "tools" / name, ignore=shutil.ignore_patterns("__pycache__"))
        shutil.copy(TOP / "tools" / "proved", self.top / "tools")
        # The pretended toolchain is quicker than the true one, so it is looked at more often; and memory is enough.
        self.change("call.py", "TICK = 0.5", "TICK = 0.1")
        self.change("machine.py", "int(free[1]) // EACH if free else 0", "8")
        self.change("machine.py", "len(os.sched_getaffinity(0))", "4")
        (self.top / "crates.txt").write_text(CRATES)
        (self.top / "HANDLES").write_text("Handles allowed: none.\n")
        for name in ("low", "middle", "beside", "high", "feast", "other"):
            (self.top / "crates" / name / "src").mkdir(parents=True)
            (self.top / "crates" / name / "src" / "lib.rt").write_text(SOURCE)
        self.program = self.top / "crates" / "feast" / "out" / "feast"
        (self.folder / "world").write_text("feast 1\n")

    def change(self, module: str, old: str, new: str) -> None:
        """Changes a text of the copied package."""
        path = self.top / "tools" / "first_call" / module
        self.assertIn(old, path.read_text())
        path.write_text(path.read_text().replace(old, new))

    def calls(self) -> list[str]:
        """The calls of the toolchain so far."""
        notes = self.top / "calls"
        return notes.read_text().splitlines() if notes.exists() else []

    def count(self, call: str) -> int:
        """How many calls of the toolchain began so."""
        return sum(it.startswith(call) for it in self.calls())

    def assert_ran(self, ended: tuple[int, str, str], words: str) -> None:
        """Tests that a call ended as the program does, with its output alone."""
        self.assertEqual((ended[0], ended[1]), (STATUS, f"{PROVED} {words}\n"), ended[2])

    def wait_for(self, what: str) -> None:
        """Waits until the toolchain has begun a call."""
        end = time.monotonic() + PATIENCE
        while not self.count(what) and time.monotonic() < end:
            time.sleep(0.02)
        self.assertTrue(self.count(what), what)

    def test_program_runs_at_the_end(self) -> None:
        ended = Call(self, ["run", "world", "", "two words"]).end()
        self.assert_ran(ended, "<run> <world> <> <two words>")

    def test_word_that_is_no_text_is_handed_on(self) -> None:
        process = subprocess.run(
            [str(self.top / "feast"), b"\xff"],
            env={**os.environ, "PATH": f"{FAKES}:{os.environ['PATH']}", "PRETENDED": str(self.top)},
            capture_output=True,
        )
        self.assertEqual(process.stdout, b"proved call of <\xff>\n")

    def test_signals_are_as_they_were(self) -> None:
        ignored = int(Call(self, ["signals"]).end()[1].split()[-1], 16)
        for number in (signal.SIGPIPE, signal.SIGXFSZ, signal.SIGINT):
            self.assertFalse(ignored >> (number - 1) & 1, number.name)

    def test_built_program_is_run_at_once(self) -> None:
        Call(self, ["run"]).end()
        before = self.calls()
        ended = Call(self, ["check", "world"]).end()
        self.assert_ran(ended, "<check> <world>")
        refused = f"feast: the call was refused, with status {STATUS}: standard output has the reason\n"
        self.assertEqual(ended[2], refused)
        self.assertEqual(self.calls(), before)

    def write(self, name: str, text: str) -> None:
        """Changes a crate's source, some time after what was done before."""
        time.sleep(0.01)
        (self.top / "crates" / name / "src" / "lib.rt").write_text(text)

    def built(self) -> list[str]:
        """The crates whose proofs were begun, in order."""
        return [it.split()[1] for it in self.calls() if it.startswith("build")]

    def test_changed_source_is_proved(self) -> None:
        Call(self, ["run"]).end()
        self.write("middle", "// changed\n")
        status, _, told = Call(self, ["run"]).end()
        self.assertEqual((status, self.built()[5:]), (STATUS, ["middle", "high", "feast"]), told)
        self.assertIn("3 of its 5 crates are to be proved first", told)

    def test_library_of_a_source_that_is_as_it_was_stands(self) -> None:
        Call(self, ["run"]).end()
        self.write("low", SOURCE)
        self.program.unlink()
        self.assert_ran(Call(self, ["run"]).end(), "<run>")
        self.assertEqual(self.built()[5:], ["feast"])

    def test_program_of_sources_that_have_another_time_stands(self) -> None:
        Call(self, ["run"]).end()
        self.write("low", SOURCE)
        self.assert_ran(Call(self, ["run"]).end(), "<run>")
        self.assertEqual(self.built()[5:], [])

    def test_deleted_source_is_noticed(self) -> None:
        self.write("low", SOURCE)
        more = self.top / "crates" / "low" / "src" / "more.rt"
        more.write_text(SOURCE)
        for name in ("moor.rt", "../aside"):
            Call(self, ["run"]).end()
            before = len(self.built())
            more = more.rename(more.parent / name)
            self.assert_ran(Call(self, ["run"]).end(), "<run>")
            self.assertEqual(sorted(self.built()[before:]), sorted(["low", "middle", "beside", "high", "feast"]))

    def test_prove_builds_whatever_lies_in_dist(self) -> None:
        """And does not run the program."""
        (self.top / "dist").mkdir()
        shutil.copy("/bin/true", self.top / "dist" / "feast")
        record = Record("a kit", GATE, digest_of(self.top / "dist" / "feast") or "", digest(self.top))
        record.write(self.top / "dist" / "PROVED")
        self.assertEqual(Call(self, ["run"]).end()[:2], (0, ""))
        for built in (5, 5):
            status, out, told = Call(self, ["--prove"]).end()
            self.assertEqual((status, out, len(self.built())), (0, "", built))
            self.assertTrue(told.endswith("crates/feast/out/feast was proved here, of the sources that lie here\n"), told)
        self.assert_ran(Call(self, ["run"]).end(), "<run>")
        made = Record("pretended-kit logic 1", LAUNCHER, digest_of(self.program) or "", digest(self.top))
        self.assertEqual(Record.read(self.program.with_name("PROVED")), made)

    def test_libraries_alone_have_sums(self) -> None:
        Call(self, ["run"]).end()
        sums = [note.stem for note in self.program.with_name("rlib").glob("*.sum")]
        self.assertEqual(sorted(sums), ["beside", "high", "low", "middle"])

    def test_library_that_is_gone_is_made_again(self) -> None:
        Call(self, ["run"]).end()
        shutil.rmtree(self.program.with_name("rlib") / "beside.rlib")
        self.write("feast", "// changed\n")
        self.assert_ran(Call(self, ["run"]).end(), "<run>")
        self.assertEqual(self.built()[5:], ["beside", "high", "feast"])

    def test_library_of_another_toolchain_is_made_again(self) -> None:
        Call(self, ["run"]).end()
        for note in self.program.with_name("rlib").glob("*.sum"):
            note.write_text("another sum")
        self.write("feast", "// changed\n")
        self.assert_ran(Call(self, ["run"]).end(), "<run>")
        self.assertEqual(sorted(self.built()[5:]), sorted(self.built()[:5]))

    def test_source_that_changes_meanwhile_is_proved_too(self) -> None:
        """The program of the call is one of the sources that lie there when it is run."""
        call = Call(self, ["run"])
        self.wait_for("build low")
        self.write("low", "// changed\n")
        ended = call.end()
        self.assert_ran(ended, "<run>")
        self.assertIn("a source was changed meanwhile", ended[2])
        self.assertEqual(sorted(self.built()[5:]), sorted(self.built()[:5]))
        self.assert_ran(Call(self, ["run"]).end(), "<run>")
        self.assertEqual(len(self.built()), 10)

    def test_progress_is_told_line_by_line(self) -> None:
        told = Call(self, ["run"]).end()[2]
        self.assertIn("the program is still to be built: 5 of its 5 crates are to be proved first, 4 at a time; you can", told)
        lines = re.findall(r"feast: (\d) of 5 crates are proved, (\d+)% of the work, in \d:\d\d:\d\d; now (.*)", told)
        self.assertEqual([(done, now) for done, _, now in lines],
                         [("0", "low"), ("1", "middle, beside"), ("3", "high"), ("4", "feast")], told)
        self.assertEqual([share for _, share, _ in lines], ["0", "20", "60", "80"], told)
        self.assertRegex(told, r"proved and built in \d:\d\d:\d\d; the program by itself is /.*/crates/feast/out/feast\n\Z")

    def test_crate_is_proved_once_those_below_it_are(self) -> None:
        Call(self, ["run"]).end()
        self.assertEqual(self.calls()[:2], ["build low by 4", "low is proved"])
        self.assertEqual(set(self.calls()[2:4]), {"build middle by 2", "build beside by 2"})
        self.assertEqual(set(self.calls()[4:6]), {"middle is proved", "beside is proved"})
        rest = ["build high by 4", "high is proved", "build feast by 4", "feast is proved", "link"]
        self.assertEqual(self.calls()[6:], rest)

    def test_little_memory_proves_one_after_another(self) -> None:
        self.change("machine.py", "4, 8)", "4, 0)")
        ended = Call(self, ["run"]).end()
        self.assert_ran(ended, "<run>")
        begun = [f"build {name} by 1" for name in ("low", "middle", "beside", "high", "feast")]
        self.assertEqual([it for it in self.calls() if it.startswith("build")], begun)
        self.assertRegex(ended[2], "1 of 5 crates are proved, .*; now middle\n")

    def test_four_calls_build_once(self) -> None:
        calls = [Call(self, ["run", str(number)]) for number in range(4)]
        ends = [call.end() for call in calls]
        for number, ended in enumerate(ends):
            self.assert_ran(ended, f"<run> <{number}>")
        self.assertEqual(self.count("link"), 1)
        self.assertEqual(sum("another ./feast is building the program" in told for _, _, told in ends), 3)

    def test_call_that_waited_builds_if_the_first_could_not(self) -> None:
        first = Call(self, ["run"])
        self.wait_for("build low")
        second = Call(self, ["check"])
        time.sleep(0.5)
        os.kill(first.process.pid, signal.SIGTERM)
        self.assertEqual(first.end()[0], 130)
        self.assert_ran(second.end(), "<check>")

    def test_interrupted(self) -> None:
        for number in (signal.SIGINT, signal.SIGTERM):
            for moment in ("build low", "build middle"):
                with self.subTest(f"{number.name} at {moment}"):
                    (self.top / "calls").unlink(missing_ok=True)
                    shutil.rmtree(self.program.parent, ignore_errors=True)
                    call = Call(self, ["run"])
                    self.wait_for(moment)
                    os.kill(call.process.pid, number)
                    status, out, told = call.end()
                    self.assertEqual((status, out), (130, ""))
                    self.assertIn("feast: interrupted: crates that are proved are kept", told)
                    self.assertEqual(left_over(self.top), [])
        self.assertIn("4 of its 5 crates are to be proved first", Call(self, ["run"]).end()[2])

    def test_what_cannot_be_proved_is_shown(self) -> None:
        (self.top / "fails").write_text("middle")
        status, out, told = Call(self, ["run"]).end()
        self.assertEqual((status, out), (1, ""))
        self.assertIn("error: the sum of middle is not proved\n", told)
        self.assertNotIn("fn good: proved", told)
        self.assertNotIn("modules loaded", told)
        self.assertNotIn("3 of 5 crates are proved", told)
        self.assertTrue(told.endswith("feast: the program could not be built: the toolchain's reasons are above\n"))

    def test_crate_that_is_done_when_another_fails_is_kept(self) -> None:
        # (looked at so seldom that both are over by then, in whichever order they were begun)
        self.change("call.py", "TICK = 0.1", "TICK = 3")
        for fails, kept in (("middle", "beside"), ("beside", "middle")):
            with self.subTest(fails):
                shutil.rmtree(self.program.parent, ignore_errors=True)
                (self.top / "fails").write_text(fails)
                told = Call(self, ["run"]).end()[2]
                self.assertIn(f"error: the sum of {fails} is not proved\n", told)
                sums = [note.stem for note in self.program.with_name("rlib").glob("*.sum")]
                self.assertEqual(sorted(sums), sorted(["low", kept]))

    def test_end_by_a_signal_is_told(self) -> None:
        for crate in ("middle", "feast"):
            with self.subTest(crate):
                (self.top / "killed").write_text(crate)
                status, _, told = Call(self, ["run"]).end()
                self.assertEqual(status, 1)
                # (a shell says so too)
                ended = "the toolchain was ended by signal 9, most likely for want of memory"
                self.assertRegex(told, f"== {crate}\n(.*Killed.*\n)?{ended}\n")

    def test_without_the_toolchain(self) -> None:
        call = Call(self, ["run"], PATH="/usr/bin:/bin")
        status, out, told = call.end()
        self.assertEqual((status, out), (1, ""))
        self.assertIn("install the Rattle kit", told)


def left_over(top: pathlib.Path) -> list[str]:
    """The processes that still work in a repository."""
    found = []
    for entry in pathlib.Path("/proc").iterdir():
        try:
            if entry.name.isdigit() and os.readlink(entry / "cwd").startswith(str(top)):
                found.append((entry / "cmdline").read_bytes().decode())
        except OSError:
            continue
    return found


def checks(_: object) -> Iterator[unittest.TestCase]:
    """The tests of the first call, and those of its parts."""
    for kind in (FirstCall, Crates, Ends):
        yield from flat(unittest.defaultTestLoader.loadTestsFromTestCase(kind))


if __name__ == "__main__":
    from driver import only

    sys.exit(only("first_call"))
