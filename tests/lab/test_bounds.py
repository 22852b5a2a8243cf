"""What strangers send is bounded: files that unpack to much more than they can have are refused, and none of it is held."""
import gzip
import subprocess
import sys
import zlib
from collections.abc import Iterator
from pathlib import Path

from calls import EXAMPLES, TOP, LabCase, Word, around, feast
from feast_lab.lab.base.errors import LabError
from feast_lab.lab.base.program import Program
from feast_lab.lab.formats.layout import Layout
from feast_lab.lab.worlds.stamps import stamped

WORLD = "feast 1\ntiles 2 1\nsize 8 8\nseed 3\nattempts 60\natom 1 1 Regulator\natom 9 5 Regulator\n"
ELEMENTS = EXAMPLES / "regulator.ulam"
# A call of the lab, and how many KB it held at most.
MEASURED = """
import resource, sys
sys.path.insert(0, sys.argv[1])
from feast_lab.lab.command.main import main
status = main(sys.argv[2:])
print(resource.getrusage(resource.RUSAGE_SELF).ru_maxrss, file=sys.stderr)
sys.exit(status)
"""
ROOM = 60_000  # KB that a refusal may hold beyond what a small call holds


def packed(pieces: Iterator[bytes]) -> bytes:
    """Pieces packed by gzip, one after another, so that nothing large is held here either."""
    to = zlib.compressobj(1, zlib.DEFLATED, 31)
    return b"".join([*map(to.compress, pieces), to.flush()])


class BoundCase(LabCase):
    """A chain of one leg, whose report is kept."""

    def setUp(self) -> None:
        super().setUp()
        self.world = self.file("small.world", WORLD)
        self.chain = self.room / "chain"
        self.passes("chain", self.chain, "--legs", "1", "--step", "--keep", "reports", self.world, ELEMENTS)

    def held(self, *words: Word) -> tuple[int, str, int]:
        """The status of a call of the lab, what it says, and how many KB it held; it is over in a minute."""
        done = subprocess.run([sys.executable, "-B", "-c", MEASURED, TOP / "tools", *words], stdout=subprocess.DEVNULL,
                              stderr=subprocess.PIPE, text=True, env=around(), timeout=60, check=False)
        *said, size = done.stderr.splitlines()
        return done.returncode, "\n".join(said), int(size)

    def is_refused(self, says: str, *words: Word, status: int = 2) -> None:
        """Tries that a call is refused in one line that has these words, and that it holds hardly more than another call."""
        usual = self.held("unpack", self.world)[2]
        found, said, size = self.held(*words)
        self.assertEqual((found, said.count("\n")), (status, 0), said)
        self.assertIn(says, said)
        self.assertLess(size, usual + ROOM, words)


class Kept(BoundCase):
    """Reports that a chain keeps, packed, with an index that says how long they are."""

    def test_bombs(self) -> None:
        """A pack that has more than the index says, and an index that says more than its world can have, by whatever verb."""
        packs, index = self.chain / "legs.gz", self.chain / "legs.index"
        size = index.read_text().split()[2]
        data = packed(b"0" * (1 << 20) for _ in range(300))
        packs.write_bytes(data)
        for said, says in ((size, "legs.gz: it is damaged or cut short, at the legs from 1 to 1"), (300 << 20, "legs.index:1: no line of an index"),
                           ("9" * 10, "legs.index:1: no line of an index"), ("9" * 40, "legs.index:1: no line of an index")):
            index.write_text(f"1 {len(data)} {said}\n")
            calls: list[list[Word]] = [["unpack", self.chain], ["chain", "--audit", self.chain], ["rates", self.chain],
                                       ["atoms", self.chain], ["film", self.chain, "--csv"]]
            for words in calls:
                with self.subTest(f"{said} {words[0]}"):
                    self.is_refused(says, *words)

    def test_all_that_a_world_has(self) -> None:
        """The longest report of a world is within its bound: a full plane, names of 255 letters, and a difference for each event."""
        name = "N" * 255
        elements = self.file("long.ulam", f"element {name} {{ EventWindow ew; Void behave() {{ }} }}\n")
        atoms = "".join(f"atom {x} {y} {name} 0{'0' * 17}\n" for y in range(8) for x in range(16))
        world = self.file("full.world", f"feast 1\ntiles 2 1\nsize 8 8\nseed 3\nattempts 2000\n{atoms}")
        chain = self.room / "full"
        for form in ((), ("--step",)):
            self.passes("chain", chain, "--legs", "1", "--keep", "reports", *form, world, elements)
            self.assertEqual(self.passes("chain", "--audit", chain), "yes\n")
            self.passes("unpack", chain, "--leg", "1", "--whole")
            subprocess.run(["rm", "-r", chain], check=True)


class Packed(BoundCase):
    """Files that are packed by gzip."""

    def test_reports(self) -> None:
        report, words = self.room / "report.gz", (self.world, self.room / "report.gz")
        front = b"feast 1\natoms 0\njournal 0\nabandoned 0\n"
        zeros, lines = (b"0" * (1 << 20) for _ in range(140)), (b"\n" * (1 << 20) for _ in range(20))
        for name, data in (("bytes", packed(zeros)), ("lines", packed(lines)), ("a member behind", gzip.compress(front) + packed(
                b"0" * (1 << 20) for _ in range(140)))):
            report.write_bytes(data)
            says = f"lab: {report}: too long for a report, which has at most 139,000,000 bytes and 1,262,148 lines"
            with self.subTest(name):
                self.is_refused(says, "events", report)
                self.is_refused(says, "film", *words, "--csv", ELEMENTS)
        self.is_refused(says, "atoms", report, ELEMENTS)
        self.is_refused(says, "unpack", report)

    def test_plain(self) -> None:
        """A file that isn't packed has the same bound, and a device without an end is no report."""
        report = self.room / "report"
        with report.open("wb") as file:
            file.truncate(140_000_000)
        for path in (report, Path("/dev/zero")):
            self.is_refused(f"lab: {path}: too long for a report", "events", path)

    def test_map(self) -> None:
        drawing = self.room / "map.gz"
        words = ("paint", drawing, "--key", "A=Regulator", "--size", "8", "8", ELEMENTS)
        for piece, times in ((b".", 70), (b"\n", 20)):
            drawing.write_bytes(packed(piece * (1 << 20) for _ in range(times)))
            self.is_refused("map.gz: too long for a map, which has at most 67,108,864 bytes and 1,048,576 lines", *words)


class Numbers(BoundCase):
    """Numbers that ask for much."""

    def test_frames(self) -> None:
        report = self.file("report", feast("step", self.world, ELEMENTS))
        words: list[Word] = ["film", self.world, report, "--csv", ELEMENTS, "--frames"]
        for number in ("10001", "100000000"):
            self.refused(f"--frames {number}: a film has at most 10,000 frames behind the first", *words, number)
        self.assertEqual(len(self.passes(*words, "10000").splitlines()), 122)

    def test_pattern(self) -> None:
        """A pattern in RLE that a stranger sent to be stamped, or to be painted."""
        layout = Layout.of(Program.find(), [ELEMENTS])
        for text in ("x = 1, y = 1\n99999999999999o!", "x = 1, y = 1\n600$o!", "." * 512 + "o"):
            with self.assertRaisesRegex(LabError, "the drawing: o would stand at .* and a plane has at most 512 columns and rows"):
                stamped(text, ["o=Regulator"], (0, 0), layout)
        drawing = self.file("map.rle", f"x = 1, y = 1\n{'9' * 5000}o!")
        self.refused("map.rle: 9999999999999999999999 is no part of a pattern in RLE",
                     "paint", drawing, "--key", "o=Regulator", "--size", "8", "8", ELEMENTS)

    def test_folder(self) -> None:
        """A manifest that nests without end, and a course with a cell without end."""
        manifest, course = self.chain / "chain.json", self.chain / "course.csv"
        was = manifest.read_text()
        manifest.write_text("[" * 100_000)
        self.refused("chain.json: no manifest of a chain", "chain", "--audit", self.chain)
        manifest.write_text(was)
        course.write_text("0" * 1_000_000)
        self.refused("course.csv: no table in CSV", "chain", "--audit", self.chain)
