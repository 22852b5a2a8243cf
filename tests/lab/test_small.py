"""Small things: names of files that say another form, pipes, chains in the place of reports, one of a thing."""
import csv
import io
import os
import pty
import subprocess
import threading
from collections.abc import Iterator
from contextlib import contextmanager
from pathlib import Path

import films
from calls import EXAMPLES, PROGRESS, TOP, LabCase, around, feast, here
from kept_chain import told as told_of
from feast_lab.lab.base.errors import LabError
from feast_lab.lab.base.files import write_whole

WORLD = "feast 1\ntiles 2 1\nsize 8 8\nseed 3\nattempts 60\natom 1 1 Regulator\natom 9 5 Regulator\n"
ELEMENTS = EXAMPLES / "regulator.ulam"


class SmallCase(LabCase):
    """A small run, and a chain of two legs of it."""

    def setUp(self) -> None:
        super().setUp()
        self.world = self.file("small.world", WORLD)
        self.chain = self.room / "chain"

    def report(self) -> Path:
        """The report of a stepped run."""
        return self.file("report", feast("step", self.world, ELEMENTS))

    def table(self, *words: str | Path) -> list[dict[str, str]]:
        """The rows that a verb writes."""
        return list(csv.DictReader(io.StringIO(self.passes(*words))))


class Names(SmallCase):
    """Names that end as those of another form."""

    def test_film(self) -> None:
        report = self.report()
        for name in ("film.gif", "film", "film.mp4"):
            self.refused(f"{name}: a film is a page for a browser, so its name has to end with .html",
                         "film", self.world, report, "-o", self.room / name, ELEMENTS)
        self.refused("--table belongs to a film", "film", self.world, report, "--csv", "--table", self.room / "t.csv", ELEMENTS)

    def test_map(self) -> None:
        self.refused("--svg 500: it takes the file of the map, whose name has to end with .svg",
                     "rates", self.world, self.report(), "--svg", "500")

    def test_no_text(self) -> None:
        """A name that is no text in UTF-8 stands in a map with a mark for what is none, and is refused where it can't stand."""
        world, report, figure = self.room / "w\udcff.world", self.report(), self.room / "map.svg"
        self.world.rename(world)
        self.passes("rates", world, report, "--svg", figure)
        self.assertIn("<title>w\ufffd.world: events", figure.read_text())
        figure.unlink()
        with self.assertRaisesRegex(LabError, "map.svg: can't be written: the text for it has a name that is no text in UTF-8"):
            write_whole(figure, world.name)
        self.assertFalse(figure.exists())

    def test_table(self) -> None:
        """The table beside a film is that of --csv."""
        report, page, table = self.report(), self.room / "film.html", self.room / "t.csv"
        self.passes("film", self.world, report, "--frames", "3", "-o", page, "--table", table, ELEMENTS)
        self.assertEqual(table.read_text(), self.passes("film", self.world, report, "--frames", "3", "--csv", ELEMENTS))
        self.assertEqual([shot.events for shot in films.shots(page.read_text())],
                         [int(row["events"]) for row in csv.DictReader(io.StringIO(table.read_text()))])


class Chains(SmallCase):
    """Chains in the place of reports."""

    def test_chain(self) -> None:
        """Rates are those of the legs together, and atoms are those at the end."""
        told = self.passes("chain", self.chain, "--legs", "2", "--step", "--keep", "reports",
                           "--at", "5:clear:0,0,1,1", self.world, ELEMENTS)
        self.assertEqual(told.splitlines()[1:], ["--at 5:clear:0,0,1,1: still to come; the chain has 2 legs so far, and --legs 5 or more does it"])
        legs = []
        for leg in (1, 2):
            world, report = (self.file(form, told_of(self.chain, leg, form)) for form in ("world", "whole"))
            legs.append(self.table("rates", world, report))
        whole = self.table("rates", self.chain)
        for one, two, both in zip(*legs, whole, strict=True):
            for name in ("events", "abandoned"):
                self.assertEqual(int(both[name]), int(one[name]) + int(two[name]))
        self.assertEqual(self.passes("atoms", self.chain), self.passes("atoms", self.file("atoms", told_of(self.chain, 2, "atoms")), ELEMENTS))
        self.assertEqual([row["tile"] for row in self.table("rates", self.chain, "--by", "tile")], ["0", "1"])

    def test_refused(self) -> None:
        self.refused("rates take WORLD REPORT, or the folder DIR of a chain", "rates", self.world)
        self.refused("atoms takes REPORT FILE.., or the folder DIR of a chain", "atoms", self.world)
        self.refused("no chain was begun there", "rates", self.room)
        self.refused("no chain was begun there", "atoms", self.room)
        self.passes("chain", self.chain, "--legs", "1", self.world, ELEMENTS)
        self.refused("the chain keeps no reports, so nothing is known of its sites", "rates", self.chain)


class Inputs(SmallCase):
    """What the lab reads."""

    def test_pipes(self) -> None:
        """A world that comes through a pipe, as `<(..)` of a shell makes one, is read once and used like a file."""
        pipe = self.room / "pipe"
        os.mkfifo(pipe)
        expected = self.passes("sweep", "--set", "Regulator.regulator_birth=20", "--step", self.world, ELEMENTS)
        writer = threading.Thread(target=lambda: pipe.write_text(WORLD))
        writer.start()
        self.addCleanup(writer.join)
        self.assertEqual(self.passes("sweep", "--set", "Regulator.regulator_birth=20", "--step", pipe, ELEMENTS), expected)

    def test_shell(self) -> None:
        """The same by a shell, in which pipes have numbers."""
        command = f"{TOP}/lab film <(cat {self.world}) {self.report()} --frames 2 --csv {ELEMENTS}"
        done = subprocess.run(["bash", "-c", command], capture_output=True, text=True, env=around(), check=False)
        self.assertEqual(done.returncode, 0, done.stderr)
        self.assertEqual(done.stdout, here("film", self.world, self.room / "report", "--frames", "2", "--csv", ELEMENTS).wrote)


class Places(SmallCase):
    """What is named for what is written. A pipe, a device or an open file takes it, and stays what it is; so does a link."""

    def setUp(self) -> None:
        super().setUp()
        report = self.report()
        film = ("film", self.world, report, "--frames", "2", ELEMENTS)
        self.options: dict[str, tuple[str | Path, ...]] = {
            "-o": (*film, "--csv"), "--table": (*film, "-o", self.room / "film.html"), "--svg": ("rates", self.world, report)}

    def writes(self, option: str, place: Path, *passed: int) -> str:
        """What an option writes to a plain file, after a call that has it write to a place, and that is over in a minute."""
        done = subprocess.run([TOP / "lab", *self.options[option], option, place], stdout=subprocess.DEVNULL, stderr=subprocess.PIPE,
                              text=True, env=around(), pass_fds=passed, timeout=60, check=False)
        self.assertEqual(PROGRESS.sub("", done.stderr), "")
        plain = self.room / "plain.svg"
        self.passes(*self.options[option], option, plain)
        self.assertEqual(list(self.room.rglob("*.part")), [])
        return plain.read_text()

    @contextmanager
    def reader(self, source: Path | int, got: Path) -> Iterator[None]:
        """Copies what comes out of a pipe or a device to a file, for as long as something has it open, or a minute."""
        with got.open("wb") as out:
            words = ["cat", *([] if isinstance(source, int) else [str(source)])]
            reads = subprocess.Popen(words, stdin=source if isinstance(source, int) else None, stdout=out, stderr=subprocess.DEVNULL)
        try:
            yield
            reads.wait(60)
        finally:
            reads.kill()
            reads.wait()

    def test_pipe(self) -> None:
        pipe, got = self.room / "pipe.svg", self.room / "got"
        os.mkfifo(pipe)
        for option in self.options:
            with self.subTest(option):
                with self.reader(pipe, got):
                    wanted = self.writes(option, pipe)
                self.assertTrue(pipe.is_fifo())
                self.assertEqual(got.read_text(), wanted)

    def test_device(self) -> None:
        """A terminal, and a link to one. (Root could replace another device; a terminal's folder takes no files.)"""
        for option in self.options:
            with self.subTest(option):
                ours, theirs = pty.openpty()
                device, link, got = Path(os.ttyname(theirs)), self.room / f"{option}.svg", self.room / "got"
                link.symlink_to(device)
                with self.reader(ours, got):
                    os.close(ours)
                    wanted = self.writes(option, link)
                    os.close(theirs)
                self.assertEqual(link.readlink(), device)
                self.assertEqual(got.read_text(), wanted)

    def test_open_file(self) -> None:
        """A file that the call has open, by a link to it and, but for the map, by its number."""
        for option in self.options:
            with self.subTest(option), (self.room / "open").open("wb") as file:
                link = self.room / f"{option}.svg"
                link.symlink_to(f"/proc/self/fd/{file.fileno()}")
                for place in (link, Path(f"/dev/fd/{file.fileno()}")):
                    if option == "--svg" and place != link:
                        continue
                    file.truncate(0)
                    wanted = self.writes(option, place, file.fileno())
                    self.assertEqual(Path(file.name).read_text(), wanted)
                self.assertTrue(link.is_symlink())

    def test_link(self) -> None:
        """What a link leads to is written whole: a name that the file had beside it keeps what it had."""
        below, aim, old = self.room / "below", self.room / "aim", self.room / "old"
        below.mkdir()
        link = below / "link.svg"
        link.symlink_to("../middle")
        (self.room / "middle").symlink_to(aim)
        for option in self.options:
            for was in (None, "old\n"):
                with self.subTest(option, was=was):
                    for path in (aim, old):
                        path.unlink(missing_ok=True)
                    if was is not None:
                        aim.write_text(was)
                        old.hardlink_to(aim)
                    self.assertEqual(self.writes(option, link), aim.read_text())
                    self.assertTrue(link.is_symlink())
                    self.assertEqual(old.read_text() if was is not None else None, was)

    def test_link_to_itself(self) -> None:
        link = self.room / "link.svg"
        link.symlink_to(link)
        self.refused(f"{link}: can't be written: too many levels of symbolic links", *self.options["--svg"], "--svg", link)
        self.assertTrue(link.is_symlink())
