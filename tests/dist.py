#!/usr/bin/env python3
"""Whether dist/ is of the sources that lie here; and, on small repositories that only pretend, the gate that makes it, and
which program ./feast and the lab take: dist.py [NAME..]."""
from __future__ import annotations

import os
import shutil
import subprocess
import sys
import tempfile
import unittest
from pathlib import Path
from typing import Callable, Iterator, Optional

TOP = Path(__file__).resolve().parent.parent
sys.dont_write_bytecode = True
sys.path.insert(0, str(TOP / "tools"))

from checks import Check, flat  # noqa: E402
from feast_lab.proved.found import BUILT, DIST, KEPT  # noqa: E402
from feast_lab.proved.record import GATE, LAUNCHER, Record, digest_of  # noqa: E402
from feast_lab.proved.sources import LINE, SourcesError, digest  # noqa: E402
from tree import files  # noqa: E402

FAKES = TOP / "tests" / "fakes" / "bin"
COPIED = ("feast", "lab", "test", "tools/dist", "tools/help.txt", "tools/proved", "tools/feast_lab", "tools/first_call",
          "tools/releasing", "tests/gate.py")
FILES = {"crates.txt": "feast: low\n", "HANDLES": "x\n", "crates/low/src/lib.rt": "// low\n",
         "crates/low/src/more.rt": "// more\n", "crates/feast/src/main.rt": "// main\n"}
KIT = "pretended-kit logic 1"
NOBODY = 65534


class Repository(unittest.TestCase):
    """A small repository."""

    def setUp(self) -> None:
        self.room = Path(self.enterContext(tempfile.TemporaryDirectory(prefix="dist-")))
        self.room.chmod(0o755)
        self.top = self.room / "top"
        for name in COPIED:
            (self.top / name).parent.mkdir(parents=True, exist_ok=True)
            if (TOP / name).is_dir():
                shutil.copytree(TOP / name, self.top / name, ignore=shutil.ignore_patterns("__pycache__"))
            else:
                shutil.copy(TOP / name, self.top / name)
        for name, text in FILES.items():
            self.file(name, text)

    def file(self, name: str, text: str) -> Path:
        """A file with a text."""
        path = self.top / name
        path.parent.mkdir(parents=True, exist_ok=True)
        path.write_text(text)
        return path

    def program(self, place: str, by: str = GATE) -> None:
        """Puts a program in a place that says so, with its record of the sources that lie there."""
        program = self.file(place, f"#!/bin/sh\necho {place} \"$@\"\n")
        program.chmod(0o755)
        Record(KIT, by, digest_of(program) or "", digest(self.top)).write(program.with_name("PROVED"))

    def call(self, *words: str, path: str = f"{FAKES}:{Path(sys.executable).parent}:/usr/bin:/bin",
             user: Optional[int] = None) -> subprocess.CompletedProcess[str]:
        """A call of a command of the repository."""
        around = {"PATH": path, "PRETENDED": str(self.top), "PYTHONDONTWRITEBYTECODE": "1"}
        return subprocess.run([self.top / words[0], *words[1:]], cwd=self.room, env=around, capture_output=True, text=True,
                              check=False, user=user)


class Digest(Repository):
    """The digest of the sources."""

    def test_line_of_the_shell(self) -> None:
        """The line that anyone can do again prints the same, whatever names files have, and counts what no crate's `out` has."""
        before = digest(self.top)
        for name in ("low/two words", "low/a\\b", "low/a\nb", "low/src/out/mod.rt", "low/.hidden", "low/data/empty", "x/outer"):
            self.file(f"crates/{name}", "" if name.endswith("empty") else "x\n")
            Path(os.fsdecode(os.fsencode(self.top / "crates/low") + b"/\xff")).write_bytes(b"\xff")
            after = digest(self.top)
            done = subprocess.run(["sh", "-c", LINE], cwd=self.top, capture_output=True, text=True, check=True)
            self.assertEqual((done.stdout, done.stderr), (f"{after}  -\n", ""))
            self.assertNotEqual(after, before, name)
            before = after
        self.file("crates/low/out/kept", "x\n")
        self.assertEqual(digest(self.top), before)

    def test_no_plain_file(self) -> None:
        """A tree with a link, or without a file that always counts, has no digest."""
        link = self.top / "crates" / "low" / "link.rt"
        link.symlink_to("src/lib.rt")
        with self.assertRaisesRegex(SourcesError, "crates/low/link.rt"):
            digest(self.top)
        link.unlink()
        (self.top / "HANDLES").unlink()
        with self.assertRaisesRegex(SourcesError, "HANDLES"):
            digest(self.top)


class Gate(Repository):
    """The gate's check of dist/, and tools/dist."""

    def gate(self) -> tuple[int, str]:
        """The status of the gate, and the last line that it writes."""
        done = self.call("tests/gate.py")
        return done.returncode, (done.stdout + done.stderr).splitlines()[-1]

    def test_dist_is_made_of_the_gate(self) -> None:
        self.assertEqual(self.gate(), (1, "dist: there is no dist/PROVED; `tools/dist` puts the gate's program there"))
        self.assertEqual(self.call("tools/dist").returncode, 0)
        self.assertEqual(self.gate(), (0, "dist/ has the program that the gate has made of these sources"))
        record = Record.read(self.top / DIST.record)
        self.assertEqual(record, Record(KIT, GATE, digest_of(self.top / BUILT.program) or "", digest(self.top)))
        self.assertTrue(os.access(self.top / DIST.program, os.X_OK))

    def test_what_differs_fails(self) -> None:
        """Each change of what dist/ stands for fails the gate, until tools/dist has done its work."""
        other = "dist/PROVED is of other sources than lie here"
        low, byte = self.top / "crates/low", b"#!/bin/sh\necho  X\"$@\"\n"
        changes: list[tuple[str, Callable[[], object], str]] = [
            ("a changed source", lambda: self.file("crates/low/src/lib.rt", "// Low\n"), other),
            ("a changed HANDLES", lambda: self.file("HANDLES", "y\n"), other),
            ("a file more", lambda: self.file("crates/low/src/new.rt", ""), other),
            ("a file less", (low / "src/new.rt").unlink, other),
            ("another name", lambda: (low / "src/more.rt").rename(low / "src/moor.rt"), other),
            ("a changed byte", lambda: (self.top / DIST.program).write_bytes(byte), "dist/feast is not the program that dist/PROVED names"),
            ("another program", lambda: self.file("program", "other"), "dist/feast is not the program that the gate has made"),
            ("another kit", lambda: self.file("kit", "other-kit"), f"dist/PROVED names the kit {KIT}, and the gate had other-kit"),
            ("a changed record", lambda: (self.top / DIST.record).open("a").write("x\n"), "dist/PROVED is not the gate's"),
        ]
        self.gate()
        self.call("tools/dist")
        for name, change, says in changes:
            with self.subTest(name):
                change()
                status, said = self.gate()
                self.assertEqual(status, 1)
                self.assertIn(says, said)
                self.assertIn("`tools/dist`", said)
                self.assertEqual(self.call("tools/dist").returncode, 0)
                self.assertEqual(self.gate()[0], 0)

    def test_nothing_else_is_taken(self) -> None:
        """Without the gate's record of the very sources and the very program there is no dist/."""
        self.assertIn("there is no program of the gate to take", self.call("tools/dist").stderr)
        self.program(BUILT.program, LAUNCHER)
        self.assertIn("was proved by ./feast --prove, and not by the gate", self.call("tools/dist").stderr)
        self.gate()
        self.file("crates/low/src/lib.rt", "// Low\n")
        self.assertIn("crates/feast/out/PROVED is of other sources", self.call("tools/dist").stderr)
        self.gate()
        self.file(BUILT.program, "#!/bin/sh\n")
        self.assertIn("is not the program that crates/feast/out/PROVED names", self.call("tools/dist").stderr)
        self.assertFalse((self.top / "dist").exists())

    def test_words_of_test(self) -> None:
        """Without a word, ./test has no gate, and says so; `all` begins with it, and goes on with its program."""
        for name in ("driver", "passed"):
            self.file(f"tests/{name}.py", f"import sys\nprint('{name}', *sys.argv[1:])\nsys.exit('fail' in sys.argv)\n")
        untried, built = "proofs: not tried here (./test all)\n", self.top / BUILT.program
        left_out = built.with_name("left_out.json")
        calls: list[tuple[list[str], int, str]] = [
            ([], 0, f"driver\n{untried}"), (["quick"], 0, f"driver\n{untried}"),
            (["quick", "lab", "-k", "film"], 0, f"driver lab -k film\n{untried}"), (["quick", "fail"], 1, f"driver fail\n{untried}"),
            (["every"], 2, ""), (["all"], 1, f"driver --program {built} --left-out {left_out}\n"),
        ]
        for words, status, out in calls:
            done = self.call("test", *words)
            self.assertEqual((done.returncode, done.stdout), (status, out), done.stderr)
        self.call("tools/dist")
        done = self.call("test", "all")
        self.assertEqual(done.returncode, 0, done.stderr)
        self.assertRegex(done.stdout, rf"\Adist/ has the program .*\ndriver --program {built} --left-out {left_out}\n"
                                      rf"passed .*{built} {KIT} {left_out}\n\Z")
        self.file("fails", "x")
        self.assertEqual(self.call("test", "all").returncode, 1)

    def test_gate_that_fails(self) -> None:
        """A gate that fails, or under which a source was changed, leaves no record."""
        self.gate()
        for name, says in (("fails", ""), ("meddles", "gate: the sources were changed while the gate ran")):
            path = self.file(name, "x")
            done = self.call("tests/gate.py")
            self.assertEqual(done.returncode, 1)
            self.assertIn(says, done.stdout)
            self.assertFalse((self.top / BUILT.record).exists())
            path.unlink()


class Taken(Repository):
    """Which program is taken: ./feast and the lab agree."""

    def taken(self) -> str:
        """The place of the program that ./feast runs and the lab calls, by what it writes; empty if there is none."""
        finder = "import sys; sys.path.insert(0, 'top/tools'); from feast_lab.lab.base.program import Program; print(Program.find().path)"
        for by_lab_first in (False, True):
            calls = [self.by_lab(finder), self.by_launcher()] if by_lab_first else [self.by_launcher(), self.by_lab(finder)]
            self.assertEqual(calls[0], calls[1])
            (self.top / KEPT).unlink(missing_ok=True)
        self.by_launcher()  # (so that something is kept)
        return calls[0]

    def by_launcher(self) -> str:
        """The place of the program that ./feast runs, without a kit."""
        done = self.call("feast", path="/usr/bin:/bin")
        if done.returncode:
            self.assertEqual(done.returncode, 1)
            self.assertIn("feast: no program here was proved of the sources that lie here: ", done.stderr)
        return done.stdout.strip()

    def by_lab(self, finder: str) -> str:
        """The place of the program that the lab finds."""
        done = subprocess.run([sys.executable, "-B", "-c", finder], cwd=self.room, env={"PATH": "/usr/bin:/bin"},
                              capture_output=True, text=True, check=False)
        if done.returncode:
            self.assertIn("LabError: no program was proved of the sources of ", done.stderr)
        return done.stdout.strip().removeprefix(f"{self.top}/")

    def test_sources_that_are_not_those_of_dist(self) -> None:
        """Whatever was changed, and whatever its time says, dist/ isn't taken, until all is as it was."""
        self.program(DIST.program)
        source, more = self.top / "crates/low/src/lib.rt", self.top / "crates/low/src/more.rt"
        aside = self.room / "aside"

        def older() -> None:
            """Changes a source, and gives it the time that it had."""
            before = source.stat()
            source.write_text("// Low\n")
            os.utime(source, ns=(before.st_atime_ns, before.st_mtime_ns))

        changes: list[tuple[str, Callable[[], object], Callable[[], object]]] = [
            ("an edit", lambda: source.write_text("// Low\n"), lambda: source.write_text("// low\n")),
            ("an edit with the older time", older, lambda: source.write_text("// low\n")),
            ("a deleted file", lambda: more.rename(aside), lambda: aside.rename(more)),
            ("a renamed file", lambda: more.rename(more.with_name("moor.rt")), lambda: more.with_name("moor.rt").rename(more)),
            ("two files changed for one another", lambda: swap(source, more), lambda: swap(source, more)),
            ("a new file", lambda: aside.write_text("") and None or aside.rename(more.with_name("new.rt")),
             lambda: more.with_name("new.rt").unlink()),
            ("crates.txt", lambda: self.file("crates.txt", "feast:\n"), lambda: self.file("crates.txt", FILES["crates.txt"])),
            ("a changed byte of dist/feast", lambda: self.file(DIST.program, "#!/bin/sh\n"), lambda: self.program(DIST.program)),
            ("no record", lambda: (self.top / DIST.record).rename(aside), lambda: aside.rename(self.top / DIST.record)),
        ]
        self.assertEqual(self.taken(), DIST.program)
        for name, change, undo in changes:
            with self.subTest(name):
                change()
                self.assertEqual(self.by_launcher(), "")
                self.assertEqual(self.taken(), "")
                undo()
                self.assertEqual(self.by_launcher(), DIST.program)
                self.assertEqual(self.taken(), DIST.program)

    def test_program_of_this_clone_goes_first(self) -> None:
        """If it is of the sources that lie there, and the very program of its record."""
        self.program(DIST.program)
        self.assertEqual(self.taken(), DIST.program)
        self.program(BUILT.program, LAUNCHER)
        self.assertEqual(self.taken(), BUILT.program)
        self.file(BUILT.program, "#!/bin/sh\necho another\n")
        self.assertEqual(self.taken(), DIST.program)
        self.program(BUILT.program)
        self.file("crates/low/src/lib.rt", "// Low\n")
        self.assertEqual(self.taken(), "")
        self.program(BUILT.program)
        self.assertEqual(self.taken(), BUILT.program)

    def test_files_that_only_have_another_time_are_the_same(self) -> None:
        self.program(DIST.program)
        self.assertEqual(self.taken(), DIST.program)
        os.utime(self.top / "crates/low/src/lib.rt")
        self.assertEqual(self.taken(), DIST.program)

    def test_said_once(self) -> None:
        """The first call says where the program is from, and a later one needs no Python."""
        self.program(DIST.program)
        said = f"feast: the program of dist/, proved of these sources with {KIT}; ./feast --prove proves it here\n"
        for says in (said, ""):
            done = self.call("feast", "a", "b c")
            self.assertEqual((done.returncode, done.stdout, done.stderr), (0, "dist/feast a b c\n", says))
        tools = self.room / "bin"
        tools.mkdir()
        for name in ("sh", "readlink", "find", "sha256sum"):
            (tools / name).symlink_to(shutil.which(name) or "")
        done = self.call("feast", "a", path=str(tools))
        self.assertEqual((done.returncode, done.stdout, done.stderr), (0, "dist/feast a\n", ""))
        self.file("crates/low/src/lib.rt", "// Low\n")
        done = self.call("feast", "a", path=str(tools))
        self.assertEqual((done.returncode, done.stdout), (1, ""))
        self.assertIn("feast: python3 looks for the program, and is not there: ", done.stderr)

    def test_kept_place_that_is_none(self) -> None:
        """What is kept can name no other program."""
        self.program(DIST.program)
        self.call("feast")
        line = (self.top / KEPT).read_text().splitlines()[0]
        self.file("other", "#!/bin/sh\necho other\n").chmod(0o755)
        self.file(KEPT, f"{line}\nother\n")
        self.assertEqual(self.taken(), DIST.program)

    def test_clone_that_cannot_be_written(self) -> None:
        """It is looked at anew at each call, and nothing is left in it."""
        self.program(DIST.program)
        user = NOBODY if os.geteuid() == 0 else None
        for path in self.top.rglob("*"):
            path.chmod(path.stat().st_mode & 0o555)
        for _ in range(2):
            done = self.call("feast", "a", user=user)
            self.assertEqual((done.returncode, done.stdout), (0, "dist/feast a\n"))
        self.assertFalse((self.top / "crates/feast/out").exists())
        for path in self.top.rglob("*"):
            path.chmod(path.stat().st_mode | 0o200)

    def test_words_of_prove(self) -> None:
        for words, says in ((["--prove"], "there is no toolchain to prove and build"), (["--prove", "run"], "stands alone")):
            done = self.call("feast", *words, path="/usr/bin:/bin")
            self.assertIn(says, done.stderr)
            self.assertNotEqual(done.returncode, 0)


class Files(unittest.TestCase):
    """The files of the repository, which some tests go through."""

    def test_files_without_git(self) -> None:
        """In a folder that git doesn't know all files are found that it would keep."""
        room = Path(self.enterContext(tempfile.TemporaryDirectory(prefix="tree-")))
        for name in ("README.md", ".gitignore", "a/b.md", "a/out/c", "a/__pycache__/d", ".hidden/e"):
            (room / name).parent.mkdir(parents=True, exist_ok=True)
            shutil.copy(TOP / ".gitignore", room / name)
        self.assertEqual(files(room), [".gitignore", ".hidden/e", "README.md", "a/b.md"])
        for words in (["init", "-q"], ["add", "--all"]):
            subprocess.run(["git", *words], cwd=room, check=True)
        self.assertEqual(sorted(files(room)), [".gitignore", ".hidden/e", "README.md", "a/b.md"])


def swap(one: Path, other: Path) -> None:
    """Gives each of two files the other's name."""
    aside = one.with_name("aside")
    one.rename(aside)
    other.rename(one)
    aside.rename(other)


def fault() -> Optional[str]:
    """Why dist/ isn't of the sources that lie here."""
    try:
        found = DIST.fault(TOP, digest(TOP))
    except SourcesError as why:
        found = str(why)
    return found and f"{found}: `./test all` proves these sources, and `tools/dist` then makes dist/ of them"


def checks(_: object) -> Iterator[unittest.TestCase]:
    """The check of dist/, and the tests on small repositories."""
    yield Check("agrees", fault)
    for kind in (Digest, Gate, Taken, Files):
        yield from flat(unittest.defaultTestLoader.loadTestsFromTestCase(kind))


if __name__ == "__main__":
    from driver import only

    sys.exit(only("dist"))
