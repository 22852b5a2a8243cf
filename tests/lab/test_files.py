"""Files that the lab writes: beside links that others planted, with the rights that they had, and down to the disk."""
import errno
import fcntl
import os
import shutil
import stat
import subprocess
import unittest
from collections.abc import Callable, Iterator
from contextlib import contextmanager
from pathlib import Path
from unittest import mock

from calls import EXAMPLES, TOP, LabCase, Word, around, feast, here
from feast_lab.lab.base.errors import LabError
from feast_lab.lab.base.files import write_whole
from feast_lab.lab.base.locks import held
from kept_chain import contents
from sweeps import FolderCase

WORLD = "feast 1\ntiles 2 1\nsize 8 8\nseed 3\nattempts 60\natom 1 1 Regulator\natom 9 5 Regulator\n"
ELEMENTS = EXAMPLES / "regulator.ulam"
NOTES = "mine, and of no run\n"


class FilesCase(LabCase):
    """A small world, a chain to be made of it, and a file outside."""

    def setUp(self) -> None:
        super().setUp()
        self.world = self.file("small.world", WORLD)
        self.notes = self.file("notes", NOTES)
        self.chain = self.room / "chain"
        self.words: list[Word] = ["chain", self.chain, "--legs", "2", "--step", "--keep", "reports", self.world, ELEMENTS]

    def film(self, to: Path) -> list[Word]:
        """The words of a table of a film."""
        report = self.file("report", feast("step", self.world, ELEMENTS))
        return ["film", self.world, report, "--frames", "2", "--csv", "-o", to, ELEMENTS]


class Planted(FilesCase):
    """Links that lie where the lab writes."""

    def test_beside(self) -> None:
        """A link of the name that a file once had before it came to its place."""
        shared = self.room / "shared"
        shared.mkdir()
        table = shared / "table.csv"
        (shared / "table.csv.part").symlink_to(self.notes)
        self.passes(*self.film(table))
        self.assertEqual(self.notes.read_text(), NOTES)
        self.assertFalse(table.is_symlink())
        self.assertTrue(table.read_text().startswith("frame,"))

    def test_chain(self) -> None:
        """In the folder of a chain no link is followed, whether it lies at a file's place or beside it."""
        names = ["chain.json", "start.world", "course.csv", "acts.txt", "legs.gz", "legs.index", "0000.atoms", "0002.atoms"]
        self.passes(*self.words)
        wanted = contents(self.chain)
        shutil.rmtree(self.chain)
        self.chain.mkdir()
        for name in names:
            (self.chain / f"{name}.part").symlink_to(self.notes)
            (self.chain / f"{name}.part.part").symlink_to(self.notes)
            if name != "chain.json":
                (self.chain / name).symlink_to(self.notes)
        self.passes(*self.words)
        self.assertEqual(self.notes.read_text(), NOTES)
        there = contents(self.chain)
        for path, data in wanted.items():
            self.assertFalse((self.chain / path).is_symlink(), path)
            self.assertTrue(there[path] == data, path)

    def test_elements(self) -> None:
        """A folder of copies that is a link to another folder is refused, and what that has stays."""
        outside = self.room / "outside"
        outside.mkdir()
        (outside / "thesis").write_text(NOTES)
        self.chain.mkdir()
        self.file("chain/chain.json.part", "")
        (self.chain / "elements").symlink_to(outside)
        done = here(*self.words)
        self.assertEqual({path.name: path.read_text() for path in outside.iterdir()}, {"thesis": NOTES})
        self.assertEqual((done.status, done.said), (2, f"lab: {self.chain}/elements: it has to be a folder, and is a link to one\n"))

    @unittest.skipIf(os.geteuid() != 0, "only root can give a link away")
    def test_of_another_user(self) -> None:
        """A link is followed if it is one's own, but not one that another user has put into a folder that others can write."""
        shared = self.room / "shared"
        shared.mkdir()
        table = shared / "table.csv"
        table.symlink_to(self.notes)
        for mode, owner, is_followed in ((0o755, 12345, True), (0o777, 0, True), (0o777, 12345, False), (0o1777, 12345, False),
                                         (0o775, 12345, False)):
            with self.subTest(oct(mode), owner=owner):
                shared.chmod(mode)
                os.lchown(table, owner, owner)
                self.notes.write_text(NOTES)
                done = here(*self.film(table))
                self.assertEqual((done.status, self.notes.read_text() == NOTES), (0, False) if is_followed else (2, True), done.said)
                self.assertTrue(table.is_symlink())


class Modes(FilesCase):
    """The rights on files."""

    def test_kept(self) -> None:
        """A file that is written anew has the rights that it had, and a new one those of any new file."""
        words, table, other = self.film(self.room / "table.csv"), self.room / "table.csv", self.file("other", "")
        self.passes(*words)
        self.assertEqual(table.stat().st_mode, other.stat().st_mode)
        for mode in (0o640, 0o600, 0o664):
            table.chmod(mode)
            self.passes(*words)
            self.assertEqual(stat.S_IMODE(table.stat().st_mode), mode)
        self.passes(*self.words)
        course = self.chain / "course.csv"
        course.chmod(0o600)
        self.words[3] = "3"
        self.passes(*self.words)
        self.assertEqual(stat.S_IMODE(course.stat().st_mode), 0o600)

    @unittest.skipIf(os.geteuid() != 0, "only root can give a file away")
    def test_of_another_user(self) -> None:
        """The rights that another user gave to a file of this name aren't taken on."""
        words, table, other = self.film(self.room / "table.csv"), self.room / "table.csv", self.file("other", "")
        table.write_text("")
        table.chmod(0o666)
        os.chown(table, 12345, 12345)
        self.passes(*words)
        self.assertEqual(table.stat().st_mode, other.stat().st_mode)

    def test_killed(self) -> None:
        """What a call that was killed has left beside the files of a chain goes away when the chain goes on."""
        self.passes(*self.words)
        wanted = sorted(self.chain.rglob("*"))
        (self.chain / ".feast-0123456789abcdef.part").write_text("leg,attem")
        self.passes(*self.words)
        self.assertEqual(sorted(self.chain.rglob("*")), wanted)


class Lasting(FolderCase):
    """What has come down to the disk when a leg or a run counts as done."""

    def setUp(self) -> None:
        super().setUp()
        self.told: list[tuple[str, str]] = []  # what was synced, or came to its place, in this order

    @contextmanager
    def watched(self) -> Iterator[None]:
        """Notes what is synced and what is renamed."""
        replace, rename, sync = os.replace, os.rename, os.fsync
        inside: dict[str, str] = {}  # the files beside their places, once they are synced

        def moving(move: Callable[[Path, Path], None], beside: Path, place: Path) -> None:
            """Notes that something comes to its place, and whether it was synced before."""
            self.told.append(("synced" if inside.pop(str(beside), "") else "unsynced", str(place)))
            move(beside, place)

        def synced(handle: int) -> None:
            """Notes that a file or a folder is synced."""
            name = os.readlink(f"/proc/self/fd/{handle}")
            inside[name] = name
            if Path(name).is_dir():
                self.told.append(("folder", name))
            elif not name.endswith(".part"):
                self.told.append(("added", name))
            sync(handle)

        with mock.patch("os.replace", lambda a, b: moving(replace, a, b)), mock.patch("os.fsync", synced), \
                mock.patch("os.rename", lambda a, b: moving(rename, a, b)):
            yield

    def test_leg(self) -> None:
        """All that a leg needs is on the disk before the line of the index with which it is done."""
        chain = self.room / "chain"
        for options in (["--keep", "reports"], ["--atoms", "3"]):
            with self.watched():
                self.passes("chain", chain, "--legs", "2", "--step", *options, self.world, self.elements)
            moves = [(how, Path(name).name) for how, name in self.told if how not in ("folder", "added")]
            self.assertEqual({how for how, name in moves if name != "chain.json"}, {"synced"})
            (begun,) = (at for at, it in enumerate(self.told) if it == ("unsynced", str(chain / "chain.json")))
            self.assertEqual(self.told[begun + 1], ("folder", str(chain)))
            added = [Path(name).name for how, name in self.told[begun:] if how == "added" or name.endswith(".atoms")]
            self.assertIn("legs.index", added)
            for pack in " ".join(added).split("legs.index")[:-1]:
                end = [] if options[0] == "--keep" else ["0002.atoms" if "0002" in pack else "0001.atoms"]
                kept = ["legs.gz", *end, "course.csv"]
                self.assertEqual(pack.split(), kept)
            self.assertEqual(added[-1], "legs.index")
            shutil.rmtree(chain)
            self.told.clear()

    def test_run(self) -> None:
        """A run of a sweep is on the disk before it comes to its place, and its place after that; its legs by themselves aren't."""
        self.passes(*self.words("--set=Regulator.regulator_birth=5", "--legs", "3", "--keep", "reports", "--plan", self.out))
        self.assertIn(("synced", str(self.out / "sweep.json")), [it for it in self._planned()])
        with self.watched():
            self.passes("sweep", "--task", self.out, "1")
        runs = self.out / "runs"
        at = self.told.index(("synced", str(runs / "00001")))
        self.assertIn(("folder", str(self.out)), self.told[:at])
        self.assertEqual(self.told[at + 1], ("folder", str(runs)))
        self.assertEqual([how for how, name in self.told if name.endswith("course.csv") and how != "added"], ["unsynced"])

    def _planned(self) -> list[tuple[str, str]]:
        """What comes to its place when the sweep is planned anew."""
        shutil.rmtree(self.out)
        with self.watched():
            self.passes(*self.words("--set=Regulator.regulator_birth=5", "--legs", "3", "--keep", "reports", "--plan", self.out))
        told, self.told = self.told, []
        return told

    def test_film(self) -> None:
        """A film is not synced: it can be made again."""
        report = self.file("report", feast("step", self.world, self.elements))
        with self.watched():
            self.passes("film", self.world, report, "--frames", "2", "--csv", "-o", self.room / "table.csv", self.elements)
        self.assertEqual(self.told, [("unsynced", str(self.room / "table.csv"))])


class Locks(FolderCase):
    """Folders on file systems without locks, and faults that have no name."""

    def no_locks(self, *words: Word) -> tuple[int, str]:
        """The status of a call on such a file system, and what it says."""
        with mock.patch.object(fcntl, "flock", side_effect=OSError(errno.ENOLCK, os.strerror(errno.ENOLCK))):
            done = here(*words)
        return done.status, done.said

    def test_none(self) -> None:
        """A chain and a gathering behave alike: each is made, with a warning, and leaves no folder open."""
        chain = self.room / "chain"
        self.passes(*self.words("--set=Regulator.regulator_birth=5", "--plan", self.out))
        opened = len(list(Path("/proc/self/fd").iterdir()))
        calls: list[tuple[Path, str, int, list[Word]]] = [
            (chain, "at work on this chain", 0, ["chain", chain, "--legs", "1", self.world, self.elements]),
            (self.out, "gathering this sweep", 1, ["sweep", "--gather", self.out]),
        ]
        for folder, work, status, words in calls:
            with self.subTest(work):
                said = f"lab: warning: {folder}: can't be locked (no locks available); see to it that no other call is {work}\n"
                self.assertEqual(self.no_locks(*words), (status, said))
        self.assertEqual(len(list(Path("/proc/self/fd").iterdir())), opened)

    def test_no_folder(self) -> None:
        with self.assertRaisesRegex(LabError, "nowhere: can't be held: no such file or directory"), held(self.room / "nowhere", "there"):
            pass

    def test_blame(self) -> None:
        """Of a fault without a name standard output is blamed only if it is at fault."""
        with mock.patch("feast_lab.lab.command.chain.made", side_effect=OSError(errno.ENOSPC, os.strerror(errno.ENOSPC))):
            done = here("chain", self.room / "chain", "--legs", "1", self.world, self.elements)
        self.assertEqual((done.status, done.said), (2, "lab: no space left on device\n"))
        report = self.file("report", feast("step", self.world, self.elements))
        for to, says in (("/dev/full", "no space left on device"), ("&-", "bad file descriptor")):
            words = f"exec {TOP / 'lab'} events {report} >{to}"
            shell = subprocess.run(["sh", "-c", words], capture_output=True, text=True, env=around(), check=False)
            self.assertEqual((shell.returncode, shell.stderr), (2, f"lab: standard output: {says}\n"))

    def test_temporary(self) -> None:
        """A temporary file that can't be written is named."""
        report = self.file("report", feast("step", self.world, self.elements))

        def full(path: Path, _data: bytes) -> int:
            """A disk on which there is no room for some files."""
            raise OSError(errno.ENOSPC, os.strerror(errno.ENOSPC))

        with mock.patch.object(Path, "write_bytes", full):
            done = here("film", self.world, report, "--frames", "2", "--csv", self.elements)
        self.assertEqual(done.status, 2)
        self.assertRegex(done.said, r"\Alab: /\S+: can't be written: no space left on device\n\Z")


class Devices(FilesCase):
    """What is no plain file is written to as before."""

    def test_null(self) -> None:
        write_whole(Path("/dev/null"), NOTES)
        self.assertTrue(Path("/dev/null").is_char_device())
