"""The words of the lab, and the program that it calls."""
import os
import shutil
import subprocess
from pathlib import Path

from calls import EXAMPLES, TOP, LabCase, Word, around, lab, program

from feast_lab.lab.base.limits import MOST_COLUMNS
from feast_lab.lab.command.main import VERBS
from feast_lab.proved.record import LAUNCHER, Record, digest_of
from feast_lab.proved.sources import digest


class Words(LabCase):
    """What holds of all verbs."""

    def test_help(self) -> None:
        told = self.passes("--help")
        for verb in VERBS:
            self.assertRegex(told, rf"(?m)^    {verb} +\S")
            page = self.passes(verb, "--help")
            self.assertIn(f"usage: ./lab {verb}", page)

    def test_no_verb(self) -> None:
        self.refused("required: VERB")
        self.refused("invalid choice: 'fly'", "fly")

    def test_program_that_is_none(self) -> None:
        words: list[Word] = ["atoms", self.room / "r", EXAMPLES / "fence.ulam"]
        done = lab(*words, instead=self.room / "nothing")
        self.assertEqual((done.returncode, done.stdout, done.stderr),
                         (2, "", f"lab: {self.room / 'nothing'}: FEAST_PROGRAM names it, and it is no program\n"))

    def test_program_that_is_not_built(self) -> None:
        """In a clone the program is found that was proved of its sources, if there is one."""
        for name in ("lab", "crates.txt", "HANDLES"):
            shutil.copy(TOP / name, self.room)
        shutil.copytree(TOP / "tools", self.room / "tools")
        source = self.room / "crates" / "feast" / "src" / "main.rt"
        source.parent.mkdir(parents=True)
        source.touch()
        report = self.file("report", "feast 1\natoms 0\njournal 0\nabandoned 0\n")

        def call() -> tuple[int, str]:
            """The status of a call, and what it writes to standard error."""
            bare = around()
            del bare["FEAST_PROGRAM"]
            done = subprocess.run([self.room / "lab", "atoms", report, EXAMPLES / "fence.ulam"],
                                  capture_output=True, text=True, env=bare, check=False)
            return done.returncode, done.stderr

        none = f"lab: no program was proved of the sources of {self.room}: %s; ./feast --prove makes one\n"
        self.assertEqual(call(), (2, none % "there is no dist/PROVED"))
        for folder in (self.room / "dist", self.room / "crates" / "feast" / "out"):
            folder.mkdir(exist_ok=True)
            shutil.copy(program(), folder / "feast")
            record = Record("a kit", LAUNCHER, digest_of(program()) or "", digest(self.room))
            record.write(folder / "PROVED")
            said = "feast: the program of dist/, proved of these sources with a kit; ./feast --prove proves it here\n"
            self.assertEqual(call(), (0, said if folder.name == "dist" else ""))
            self.assertEqual(call(), (0, ""))
        source.write_text("// changed\n")
        self.assertEqual(call(), (2, none % "dist/PROVED is of other sources than lie here"))

    def test_program_that_fails(self) -> None:
        """A call that ends without a line of its own is told by its status or its signal."""
        for script, says in [
            ("exit 8", "ended with status 8: it ran out of memory"), ("exit 7", "ended with status 7"),
            ("exit 3", "ended with status 3"), ("kill -9 $$", "was ended by signal 9"),
            ("echo E99 so; exit 4", "lab: E99 so\n"),
        ]:
            failing = self.room / "failing"
            failing.write_text(f"#!/bin/sh\n{script}\n")
            failing.chmod(0o755)
            done = lab("atoms", self.room / "r", EXAMPLES / "fence.ulam", instead=failing)
            self.assertEqual((done.returncode, done.stdout), (2, ""))
            self.assertIn(says, done.stderr)

    def test_reader_that_leaves(self) -> None:
        """A reader that wants no more is no fault of the lab, whether it left early or late."""
        for rows in (0, 64):
            atoms = "".join(f"{x} {y} Stone {'0' * 18}\n" for y in range(rows) for x in range(MOST_COLUMNS))
            report = self.file("report", f"feast 1\natoms {rows * MOST_COLUMNS}\n{atoms}journal 0\nabandoned 0\n")
            read, write = os.pipe()
            os.close(read)
            done = subprocess.run([TOP / "lab", "atoms", report, EXAMPLES / "stone.ulam"], stdout=write,
                                  stderr=subprocess.PIPE, text=True, env=around(), check=False)
            os.close(write)
            self.assertEqual((done.returncode, done.stderr), (1, ""))

    def test_full_output(self) -> None:
        """Output that can't be written is told in one line."""
        report = self.file("report", "feast 1\natoms 0\njournal 0\nabandoned 0\n")
        with open("/dev/full", "w") as full:
            done = subprocess.run([TOP / "lab", "atoms", report, EXAMPLES / "stone.ulam"], stdout=full,
                                  stderr=subprocess.PIPE, text=True, env=around(), check=False)
        self.assertEqual((done.returncode, done.stderr), (2, "lab: standard output: no space left on device\n"))

    def test_nothing_is_left_beside(self) -> None:
        """The lab leaves no compiled modules in the repository."""
        self.assertEqual(lab("--help").returncode, 0)
        self.assertEqual(list(Path(TOP / "tools").rglob("__pycache__")), [])
