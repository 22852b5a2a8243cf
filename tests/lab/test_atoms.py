"""Atoms of reports with their members."""
import csv
import gzip
import io

from calls import EXAMPLES, LabCase, feast

ELEMENTS = """quark Part { Unsigned(4) count; Bool on; }
element Cell {
  Int(5) level; Unary(4) ones; Bits(8) mask; Bool f; Int(3) list[2]; Part part; EventWindow ew; Void behave() { } }
element Wall { Unsigned(64) level; Bool f; EventWindow ew; Void behave() { } }
element Bare { EventWindow ew; Void behave() { } }
"""
# level 11101, ones 0011, mask 10100101, f 1, list 011 100, part 1001 1: behind a first bit of 0
CELL = f"{int(('0' + '11101' + '0011' + '10100101' + '1' + '011' + '100' + '1001' + '1').ljust(72, '0'), 2):018x}"
WALL = f"{int(('0' + '1' * 64 + '0').ljust(72, '0'), 2):018x}"
WORLD = f"feast 1\ntiles 1 1\nsize 8 8\natom 3 0 Cell {CELL}\natom 1 2 Wall {WALL}\natom 0 3 Bare\n"


class Atoms(LabCase):
    """The verb atoms."""

    def test_members(self) -> None:
        elements = self.file("e.ulam", ELEMENTS)
        report = self.file("report", feast("step", self.file("w", WORLD), elements))
        told = self.passes("atoms", report, elements)
        self.assertEqual(told.splitlines(), [
            "x,y,element,level,ones,mask,f,list[0],list[1],part.count,part.on",
            "3,0,Cell,-3,2,165,1,3,-4,9,1",
            f"1,2,Wall,{2**64 - 1},,,0,,,,",
            "0,3,Bare,,,,,,,,",
        ])
        packed = self.room / "packed"
        packed.write_bytes(gzip.compress(report.read_bytes()))
        self.assertEqual(self.passes("atoms", packed, elements), told)
        replayed = self.file("replayed", feast("replay", self.room / "w", report, elements))
        self.assertEqual(self.passes("atoms", replayed, elements), told)

    def test_example(self) -> None:
        """The places of the posts of a fence: those that their digits say."""
        report = feast("run", EXAMPLES / "fence.world", EXAMPLES / "fence.ulam")
        told = self.passes("atoms", self.file("report", report), EXAMPLES / "fence.ulam")
        rows = list(csv.DictReader(io.StringIO(told)))
        lines = [line.split() for line in report.splitlines() if len(line.split()) == 4]
        self.assertGreater(len(lines), 5)
        places = [str(int(state[:2], 16)) if name == "Fence" else "" for _, _, name, state in lines]
        self.assertEqual([[row["x"], row["y"], row["element"], row["place"]] for row in rows],
                         [[*line[:3], place] for line, place in zip(lines, places, strict=True)])

    def test_refused(self) -> None:
        elements = self.file("e.ulam", ELEMENTS)
        text = feast("step", self.file("w", WORLD), elements)
        report = self.file("report", text)
        self.refused("report: it has atoms of Wall, which no file has as an element", "atoms", report,
                     self.file("fewer.ulam", "\n".join(ELEMENTS.splitlines()[:3])))
        self.refused("nowhere: can't be read: no such file", "atoms", self.room / "nowhere", elements)
        self.refused("report:2: no report", "atoms", self.file("report", text.replace("atoms", "atom")), elements)
        self.refused("report:6: no report", "atoms", self.file("report", text.replace("journal", "journey")), elements)
        self.refused("report:7: no report", "atoms", self.file("report", text.rpartition("abandoned")[0]), elements)
        self.refused("report:2: no report", "atoms", self.file("report", "feast 1\n"), elements)
        self.refused("bad.ulam:1:9: E33 no behave", "atoms", report, self.file("bad.ulam", "element A { }"))
        self.refused("atoms takes REPORT FILE.., or the folder DIR of a chain", "atoms", report)
