"""Reports are read whole, packed or not, and their entries taken apart."""
import gzip

from calls import EXAMPLES, LabCase, Word, feast

from feast_lab.lab.base.errors import LabError
from feast_lab.lab.formats.outcome import Outcome, counts
from feast_lab.lab.formats.report import Abandoned, JournalRecord, Report
from feast_lab.lab.formats.world import Placed

SMALL = """feast 1
atoms 2
6 2 Walker 000000000000000000
6 4 Walker 0b8000000000000000
journal 2
1 0 0 1 4 00000000000000ff
2 1 1 2 4 0000000000000000
abandoned 1
1 0 8 4 0 2 7
"""
FAULTS = [
    (1, "feast 2", ":1: no report"),
    (2, "atom 2", ":2: no report: a line `atoms N`"),
    (2, "atoms 3", ":5: no line of the part `atoms`"),
    (3, "6 2 Walker 00000000000000000", ":3: no line of the part `atoms`"),
    (3, "6 2 Walker 800000000000000000", ":3: no line of the part `atoms`"),
    (5, "journal 1", ":7: no report: a line `abandoned N`"),
    (6, "1 0 0 01 4 00000000000000ff", ":6: no line of the part `journal`"),
    (8, "abandoned 0", ":9: more lines than the report counts"),
    (8, "abandoned 9", ": the report ends too early"),
    (9, "1 0 8 4 0 2", ":9: no line of the part `abandoned`"),
]


class Reports(LabCase):
    """Report files."""

    def test_small(self) -> None:
        packed = self.room / "packed"
        packed.write_bytes(gzip.compress(SMALL.encode()))
        for path in [self.file("plain", SMALL), packed]:
            report = Report.read(path)
            self.assertEqual(report.atoms, [Placed(6, 2, "Walker"), Placed(6, 4, "Walker", 0xb8 << 60)])
            self.assertEqual(list(report.journal), [JournalRecord(1, 0, 0, 1, 4, 255), JournalRecord(2, 1, 1, 2, 4, 0)])
            self.assertEqual(report.journal[1:].lines, ["2 1 1 2 4 0000000000000000"])
            self.assertEqual(report.abandoned[0], Abandoned(1, 0, 8, 4, 0, 2, 7))

    def test_a_run_of_tiles(self) -> None:
        text = feast("step", EXAMPLES / "fence-tiles.world", EXAMPLES / "fence.ulam")
        lines = text.splitlines()
        at = lines.index(next(line for line in lines if line.startswith("journal")))
        end = lines.index(next(line for line in lines if line.startswith("abandoned")))
        report = Report.read(self.file("report", text))
        self.assertEqual((len(report.atoms), len(report.journal), len(report.abandoned)),
                         (at - 2, end - at - 1, len(lines) - end - 1))
        self.assertEqual([f"{it.stamp} {it.tile} {it.attempt} {it.x} {it.y} {it.seed:016x}" for it in report.journal],
                         lines[at + 1:end])
        self.assertEqual([" ".join(map(str, it)) for it in report.abandoned], lines[end + 1:])
        outcome = Outcome.of(text.encode())
        self.assertEqual((outcome.atoms.splitlines(), outcome.events, outcome.abandoned),
                         (lines[:at], len(report.journal), len(report.abandoned)))
        self.assertEqual(counts(outcome.atoms, ["Fence", "Mouse", "Nobody"]),
                         [sum(" Fence " in line for line in lines), sum(" Mouse " in line for line in lines), 0])

    def test_lines_of_refusals(self) -> None:
        """A file in which the line of a refused call was kept is told by this line."""
        for line in ("E00 usage: feast check|code|pack FILE..", "w: E01 unreadable", "walker.ulam:3:17: E31 unknown name",
                     "gr\u00f6\u00dfe.ulam:1:1: E20 syntax"):
            report = self.file("report", line + "\n")
            says = f"lab: {report}: no report, but the line of a call that was refused: {line}\n"
            calls: list[list[Word]] = [
                ["atoms", report, EXAMPLES / "walker.ulam"], ["rates", EXAMPLES / "walk.world", report],
                ["film", EXAMPLES / "walk.world", report, EXAMPLES / "walker.ulam", "--csv"]]
            for words in calls:
                self.refused(says, *words)

    def test_faults(self) -> None:
        lines = SMALL.splitlines()
        for number, line, says in FAULTS:
            text = "\n".join([*lines[:number - 1], line, *lines[number:], ""])
            with self.assertRaises(LabError) as raised:
                Report.read(self.file("r", text))
            self.assertIn(f"r{says}", str(raised.exception))

    def test_cut_short(self) -> None:
        for end in range(len(SMALL)):
            with self.assertRaises(LabError):
                Report.read(self.file("r", SMALL[:end]))
        for front in (SMALL.rpartition("1 0 8")[0], SMALL.rpartition("\n1 0 8")[0], SMALL[:-1]):
            with self.assertRaises(LabError) as raised:
                Report.read(self.file("r", front))
            self.assertIn("r: the report ends too early: it has fewer than 1 lines", str(raised.exception))

    def test_damaged_packing(self) -> None:
        path = self.room / "packed"
        path.write_bytes(gzip.compress(SMALL.encode())[:-9])
        with self.assertRaises(LabError) as raised:
            Report.read(path)
        self.assertIn("packed: the packed report is damaged or cut short", str(raised.exception))
