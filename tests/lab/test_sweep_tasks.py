"""Sweeps whose runs are made by many, and gathered."""
import fcntl
import os
import shutil
import signal
import subprocess
import sys
import time

from calls import TOP, Word, around, here, lab, program
from sweeps import BIRTH, HERE, WORLD, FolderCase, contents


class Tasks(FolderCase):
    """Runs that are made one by one, by whoever, and gathered."""

    OPTIONS = [BIRTH, "--repeat", "3", "--legs", "2"]

    def setUp(self) -> None:
        super().setUp()
        self.assertEqual(self.passes(*self.words(*self.OPTIONS, "--plan", self.out)), f"{self.out}: 6 runs, 1-6\n")

    def whole(self) -> str:
        """The table of the same sweep that was made by one call."""
        folder = self.room / "whole"
        self.passes(*self.words(*self.OPTIONS, "--into", folder))
        return (folder / "sweep.csv").read_text()

    def gathered(self, missing: str) -> None:
        """Gathers, and tries which runs are told as missing."""
        done = here("sweep", "--gather", self.out)
        self.assertEqual((done.status, done.said), (1 if missing else 0, ""))
        self.assertEqual(done.wrote.partition("\n")[2], f"missing: {missing}\n" if missing else "")

    def test_any_order(self) -> None:
        """Tasks in any order and twice come to the same table, and what is missing is named."""
        self.passes(*self.words(*self.OPTIONS, "--plan", self.out))
        self.gathered("1-6")
        for number, missing in [(5, "1-4,6"), (2, "1,3-4,6"), (5, "1,3-4,6"), (6, "1,3-4"), (1, "3-4"), (3, "4"), (4, "")]:
            self.passes("sweep", "--task", self.out, str(number))
            self.gathered(missing)
        self.assertEqual((self.out / "sweep.csv").read_text(), self.whole())

    def test_twice_at_once(self) -> None:
        """A task that eight make at once is there once, and whole."""
        words: list[Word] = [TOP / "lab", "sweep", "--task", self.out, "3"]
        makers = [subprocess.Popen(words, env=around(), stdout=subprocess.PIPE, stderr=subprocess.PIPE) for _ in range(8)]
        self.assertEqual([(maker.communicate()[1], maker.returncode) for maker in makers], [(b"", 0)] * 8)
        self.assertEqual([it.name for it in (self.out / "runs").iterdir()], ["00003"])
        self.gathered("1-2,4-6")
        self.assertEqual([row["run"] for row in self.rows()], ["3"] * 3)

    def test_first_stays(self) -> None:
        """A run with threads isn't replaced by another that comes later, though they differ."""
        threads = self.room / "threads"
        self.passes("sweep", "--legs", "2", "--plan", threads, self.world, self.elements)
        slow = self.file("slow", f"#!/bin/sh\nif [ $1 = run ]; then touch {self.room}/begun; "
                                 f"while [ ! -e {self.room}/gate ]; do sleep 0.05; done; fi\nexec {program()} \"$@\"\n")
        slow.chmod(0o755)
        late = subprocess.Popen([TOP / "lab", "sweep", "--task", threads, "1"], env=around(slow), stdout=subprocess.PIPE)
        while late.poll() is None and not (self.room / "begun").exists():
            time.sleep(0.05)
        self.passes("sweep", "--task", threads, "1")
        course = threads / "runs" / "00001" / "course.csv"
        course.write_text(course.read_text() + "# the first\n")
        self.file("gate", "")
        late.communicate()
        self.assertEqual(late.returncode, 0)
        self.assertIn("# the first", course.read_text())
        self.assertEqual([it.name for it in (threads / "runs").iterdir()], ["00001"])

    def test_killed_at_each_step(self) -> None:
        """Whenever a maker is killed before its last rename, the run isn't there, and a later maker isn't disturbed."""
        expected = self.whole().splitlines()[1:4]
        for number in range(1, 30):
            dying: list[Word] = [sys.executable, HERE / "dying.py", str(number), "sweep", "--task", self.out, "1"]
            killed = subprocess.run(dying, capture_output=True, env=around(), check=False)
            if killed.returncode == 0:
                break
            self.assertEqual(killed.returncode, -signal.SIGKILL)
            self.gathered("1-6")
        self.assertGreater(number, 5)
        self.assertEqual((self.out / "sweep.csv").read_text().splitlines()[1:], [])
        self.gathered("2-6")
        self.assertEqual((self.out / "sweep.csv").read_text().splitlines()[1:], expected)

    def test_dead_node(self) -> None:
        """What a node left half written beside a run is no run, and stays out of the table."""
        half = self.out / "runs" / "00002.node7.123.abcdef00.part"
        half.mkdir(parents=True)
        (half / "course.csv").write_text("leg,attempts\n0,")
        (self.out / "sweep.csv.part").write_text("run,")
        self.gathered("1-6")
        self.passes("sweep", "--task", self.out, "2")
        self.gathered("1,3-6")
        self.assertEqual([row["run"] for row in self.rows()], ["2"] * 3)

    def test_full_disk(self) -> None:
        """A disk that is full is told in a line; the run isn't there, and is made once there is room."""
        words = f"ulimit -f 1; exec {TOP / 'lab'} sweep --task {self.out} 4"
        world = "".join(f"atom {x} {y} Resource\n" for y in range(8) for x in range(16) if (x, y) not in ((4, 4), (11, 4)))
        shutil.rmtree(self.out)
        self.world = self.file("w", WORLD + world)
        self.passes(*self.words(*self.OPTIONS, "--plan", self.out))
        done = subprocess.run(["sh", "-c", words], capture_output=True, text=True, env=around(), check=False)
        self.assertEqual((done.returncode, done.stdout), (2, ""))
        self.assertRegex(done.stderr, r"\Alab: [^\n]*can't be written: file too large\n\Z")
        self.gathered("1-6")
        self.passes("sweep", "--task", self.out, "4")
        self.gathered("1-3,5-6")

    def test_missing_program(self) -> None:
        """A node without the program makes nothing, and says so; so does one whose program fails in the midst."""
        done = lab("sweep", "--task", self.out, "1", instead=self.room / "none")
        self.assertEqual((done.returncode, done.stdout), (2, ""))
        self.assertIn("none: FEAST_PROGRAM names it, and it is no program", done.stderr)
        failing = self.file("failing", f"#!/bin/sh\ncase $1 in step) {program()} \"$@\" | head -c 3000; exit 8 ;; esac\nexec {program()} \"$@\"\n")
        failing.chmod(0o755)
        done = lab("sweep", "--task", self.out, "1", instead=failing)
        self.assertEqual((done.returncode, done.stdout), (2, ""))
        self.assertIn("it ran out of memory", done.stderr)
        self.gathered("1-6")

    def test_refused(self) -> None:
        for number in ("0", "7", "100000"):
            self.refused(f"the sweep has the runs 1 to 6, and no run {number}", "sweep", "--task", self.out, number)
        for number in ("-1", "x", "1.5"):
            self.refused(f"{number} is no number of a run", "sweep", "--task", self.out, number)
        for verb in ("--gather", "--audit"):
            self.refused("no sweep was planned there: it has no file sweep.json", "sweep", verb, self.room)
        self.refused("can't be audited: it was planned without --keep reports", "sweep", "--audit", self.out)
        self.refused("expected 2 arguments", "sweep", "--task", self.out)
        kept = contents(self.out)
        for name, old, new, says in [
            ("sweep.json", "feast sweep 4", "feast sweep 1", "the plan has the form 'feast sweep 1', and this lab makes those of"),
            ("sweep.json", "{", "", "sweep.json: no plan of a sweep"),
            ("sweep.json", '"form"', '"from"', "sweep.json: no plan of a sweep"),
            ("sweep.json", '"repeat"', '"repeats"', "sweep.json: not as the lab wrote it"),
            ("sweep.json", '"repeat": 3', '"repeat":  3', "sweep.json: not as the lab wrote it"),
            ("sweep.json", '"repeat": 3', '"repeat": "3"', "sweep.json: not as the lab wrote it"),
            ("sweep.json", '"step": true', '"step": 1', "sweep.json: not as the lab wrote it"),
            ("sweep.json", '      "Regulator.regulator_birth"', '      "Regulator.birth"', "sweep.json: not as the lab wrote it"),
            ("sweep.json", '"sets": {', '"sets": {\n    "p": 5,', "sweep.json: not as the lab wrote it"),
            ("start.world", "400", "401", "start.world: not as it was when the sweep was planned"),
            ("elements/00-regulator.ulam", "40", "41", "00-regulator.ulam: not as it was when the sweep was planned"),
        ]:
            (self.out / name).write_bytes(kept[name].replace(old.encode(), new.encode(), 1))
            self.refused(says, "sweep", "--task", self.out, "1")
            self.refused(says, "sweep", "--gather", self.out)
            (self.out / name).write_bytes(kept[name])

    def test_foreign_run(self) -> None:
        """A run of another sweep, or of another number, is not counted."""
        self.passes("sweep", "--task", self.out, "1")
        shutil.copytree(self.out / "runs" / "00001", self.out / "runs" / "00002")
        self.refused("00002/run.json: the run was made for another plan, or for another number", "sweep", "--gather", self.out)
        shutil.rmtree(self.out / "runs" / "00002")
        course = self.out / "runs" / "00001" / "course.csv"
        course.write_text(course.read_text().replace("leg,", "log,"))
        self.refused("00001/course.csv: not the course of a run of this sweep", "sweep", "--gather", self.out)

    def test_two_gatherings(self) -> None:
        self.passes("sweep", "--task", self.out, "1")
        handle = os.open(self.out, os.O_RDONLY)
        self.addCleanup(os.close, handle)
        fcntl.flock(handle, fcntl.LOCK_EX)
        self.refused("another call of the lab is gathering this sweep", "sweep", "--gather", self.out)
        fcntl.flock(handle, fcntl.LOCK_UN)
        self.gathered("2-6")
