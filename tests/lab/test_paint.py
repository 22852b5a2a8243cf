"""Worlds from drawings and patterns."""
import gzip
import subprocess
from pathlib import Path

from calls import TOP, LabCase, Word, around, feast, here

ELEMENTS = """quark Part { Unsigned(4) count; Bool on; }
element Cell {
  Int(5) level; Unary(4) ones; Bits(8) mask; Bool f; Int(3) list[2]; Part part; EventWindow ew; Void behave() { } }
element Wall { EventWindow ew; Void behave() { } }
"""
SIZE = ["--size", "8", "8"]
GLIDER = "#N Glider\n#C a comment\nx = 3, y = 3, rule = B3/S23\nbo$2bo$\n3o!\nwhat follows is not read\n"
# patterns in all the ways in which they are written, and the sites that they fill
PATTERNS = [
    ("x = 3, y = 3\nbo$2bo$3o!", [(1, 0), (2, 1), (0, 2), (1, 2), (2, 2)]),
    (GLIDER, [(1, 0), (2, 1), (0, 2), (1, 2), (2, 2)]),
    ("#C a comment\n\n\nx = 1, y = 1, rule = B3/S23\no!", [(0, 0)]),  # empty lines before the first
    ("\n  \nx = 2, y = 1\n2o!", [(0, 0), (1, 0)]),
    ("\ufeffx = 2, y = 1\n2o!", [(0, 0), (1, 0)]),  # a byte order mark
    ("\ufeff#C marked\r\nx = 2, y = 1\r\n2o!\r\n", [(0, 0), (1, 0)]),
    ("x=2,y=1,rule=B3/S23\n2o!", [(0, 0), (1, 0)]),
    (" x  =  2 ,  y =  2 , rule = B3/S23 \no$bo!", [(0, 0), (1, 1)]),
    ("#CXRLE Pos=-1,-1 Gen=5\nx = 2, y = 1, rule = B3/S23\nbo!", [(1, 0)]),
    ("x = 12, y = 1\n10bo\no!", [(10, 0), (11, 0)]),  # a row on two lines
    ("x = 2, y = 6\no5$bo!", [(0, 0), (1, 5)]),  # rows without cells
    ("x = 2, y = 2\nob$bo$!", [(0, 0), (1, 1)]),
    ("x = 2, y = 1\n\n#C between\no\n#C again\n\no!", [(0, 0), (1, 0)]),
    ("x = 0, y = 0\n!", []),
    ("x = 3, y = 1, rule = B3/S23\n.A.!", [(1, 0)]),
]


class Paintings(LabCase):
    """The verb paint."""

    def setUp(self) -> None:
        super().setUp()
        self.elements = self.file("e.ulam", ELEMENTS)

    def words(self, text: str, *more: str) -> list[Word]:
        """The words that paint a map."""
        return ["paint", self.file("map", text), *more, self.elements]

    def test_letters(self) -> None:
        told = self.passes(*self.words("#. A\n\n  #.A\r\n       #\n", *SIZE, "--key", "#=Wall",
                                       "--key",
                                       "A=Cell:level=-3,ones=2,mask=0xa5,f=true,list[1]=-1,part.count=9,part.on=1"))
        # level 11101, ones 0011, mask 10100101, f 1, list 000 111, part 1001 1: behind a first bit of 0
        bits = ("0" + "11101" + "0011" + "10100101" + "1" + "000" + "111" + "1001" + "1").ljust(72, "0")
        state = f"{int(bits, 2):018x}"
        self.assertEqual(told.splitlines(), [
            "feast 1", "tiles 1 1", "size 8 8", f"atom 0 0 Wall {'0' * 18}", f"atom 3 0 Cell {state}",
            f"atom 2 2 Wall {'0' * 18}", f"atom 4 2 Cell {state}", f"atom 7 3 Wall {'0' * 18}"])
        report = feast("step", self.file("w", told), self.elements)
        self.assertEqual(report.splitlines()[2:7], [line[5:] for line in told.splitlines()[3:]])

    def test_attempts_and_tiles(self) -> None:
        told = self.passes(*self.words("A\n", "--key", "A=Cell", "--tiles", "2", "3", "--size", "8", "9",
                                       "--seed", "18446744073709551615", "--attempts", "7", "--place", "15", "26"))
        self.assertEqual(told, "feast 1\ntiles 2 3\nsize 8 9\nseed 18446744073709551615\nattempts 7\n"
                               f"atom 15 26 Cell {'0' * 18}\n")
        self.assertIn("journal 42", feast("step", self.file("w", told), self.elements))

    def test_order(self) -> None:
        """With an order the tiles of a stepped run take turns, so that some attempts are abandoned."""
        words = self.words("A\n", "--key", "A=Cell", "--tiles", "2", "1", *SIZE, "--seed", "1", "--attempts", "50")
        alone = self.passes(*words)
        turns = self.passes(*words[:-1], "--order", "500000", words[-1])
        self.assertEqual(turns, alone + "order seed 500000\n")
        self.assertIn("abandoned 0", feast("step", self.file("w", alone), self.elements))
        self.assertNotIn("abandoned 0", feast("step", self.file("w", turns), self.elements))
        self.refused("--order -1: a seed is from 0", *words[:-1], "--order", "-1", words[-1])

    def test_pattern(self) -> None:
        told = self.passes(*self.words(GLIDER, "--key", "o=Wall", *SIZE, "--place", "2", "1"))
        self.assertEqual([line.split()[1:3] for line in told.splitlines()[3:]],
                         [["3", "1"], ["4", "2"], ["2", "3"], ["3", "3"], ["4", "3"]])

    def test_states_of_patterns(self) -> None:
        told = self.passes(*self.words("x = 9, y = 9\n2.AB3$.2pA\n2 yOX!", "--key", "A=Cell:level=1", "--key", "B=Wall",
                                       "--key", "pA=Cell:f=true", "--key", "yO=Wall", "--key", "X=Wall", *SIZE))
        self.assertEqual([" ".join(line.split()[1:4]) for line in told.splitlines()[3:]],
                         ["2 0 Cell", "3 0 Wall", "1 3 Cell", "2 3 Cell", "3 3 Wall", "4 3 Wall", "5 3 Wall"])

    def test_symbol_that_is_an_equals_sign(self) -> None:
        told = self.passes(*self.words("=\n", "--key", "==Wall", *SIZE))
        self.assertEqual(told.splitlines()[3], f"atom 0 0 Wall {'0' * 18}")

    def test_refused_keys(self) -> None:
        for text, says in [
            ("A", "it has to be S=Element"),
            ("A=Cell:level", "level has to be member=value"),
            ("A=Cell:level=16", "Cell.level can't be 16: it goes from -16 to 15"),
            ("A=Cell:ones=5", "Cell.ones can't be 5: it goes from 0 to 4"),
            ("A=Cell:f=2", "Cell.f can't be 2: it goes from 0 to 1"),
            ("A=Cell:level=ten", "ten is no number"),
            ("A=Cell:list=1", "Cell has no member list; it has level, ones, mask, f, list[0], list[1], part.count"),
            ("A=Cell:list[2]=1", "Cell has no member list[2]"),
            ("A=Part", "no file has an element Part; there are Cell, Wall"),
            ("A=Cell:f=1,f=0", "f is given twice"),
            (".=Wall", "--key .: it is always empty"),
        ]:
            self.refused(f"{says}", *self.words("A\n", "--key", text, *SIZE))
        self.refused("--key A: it is given twice", *self.words("A\n", "--key", "A=Wall", "--key", "A=Cell", *SIZE))

    def test_refused_maps(self) -> None:
        key = ["--key", "A=Wall", "--key", "o=Wall"]
        self.refused("map: B at column 1 of row 1 has no --key", *self.words("A\n.B\n", *key, *SIZE))
        self.refused("A would stand at 8 0, outside the plane of 8 by 8", *self.words("........A\n", *key, *SIZE))
        self.refused("A would stand at 0 8, outside", *self.words("\n" * 8 + "A\n", *key, *SIZE))
        self.refused("A would stand at -1 0, outside", *self.words("A\n", *key, *SIZE, "--place", "-1", "0"))
        self.refused("o would stand at 8 0, outside", *self.words("x = 1, y = 1\n99999999999999999999o!", *key, *SIZE))
        self.refused("map: 3q is no part of a pattern in RLE", *self.words("x = 1, y = 1\n3q!", *key, *SIZE))
        self.refused("map: the pattern has no end", *self.words("x = 1, y = 1\n3o", *key, *SIZE))
        path = self.room / "map"
        path.write_bytes(b"A\xff")
        self.refused("map: byte 2 is no part of a text in UTF-8", "paint", path, *key, *SIZE, self.elements)

    def test_refused_words(self) -> None:
        key = ["--key", "A=Wall"]
        self.refused("--size 7 8: both have to be from 8 to 64", *self.words("A", *key, "--size", "7", "8"))
        self.refused("--tiles 1 9: both have to be from 1 to 8", *self.words("A", *key, *SIZE, "--tiles", "1", "9"))
        self.refused("--seed and --attempts belong together", *self.words("A", *key, *SIZE, "--seed", "1"))
        self.refused("--seed -1: a seed is", *self.words("A", *key, *SIZE, "--seed", "-1", "--attempts", "1"))
        self.refused("--attempts 250001: 4 tiles may have from 0 to 250000 each",
                     *self.words("A", *key, *SIZE, "--tiles", "2", "2", "--seed", "1", "--attempts", "250001"))
        self.refused("required: --size", *self.words("A", *key))


class Maps(LabCase):
    """Which files are maps, and what is said of them."""

    def setUp(self) -> None:
        super().setUp()
        self.elements = self.file("e.ulam", ELEMENTS)

    def painted(self, path: Path, says: str = "") -> list[tuple[int, int]]:
        """The sites that a map with the symbol o fills; it says this on standard error."""
        done = here("paint", path, "--key", "o=Wall", "--key", "A=Wall", "--size", "16", "16", self.elements)
        self.assertEqual((done.status, done.said), (0, says and f"lab: warning: {path}: {says}\n"))
        return [(int(x), int(y)) for x, y in (line.split()[1:3] for line in done.wrote.splitlines()[3:])]

    def test_patterns(self) -> None:
        """Patterns of all sorts, against sites that are written out."""
        for text, sites in PATTERNS:
            with self.subTest(text):
                self.assertEqual(self.painted(self.file("map.rle", text)), sites)

    def test_packed(self) -> None:
        path = self.room / "glider.rle.gz"
        path.write_bytes(gzip.compress(GLIDER.encode()))
        self.assertEqual(self.painted(path), [(1, 0), (2, 1), (0, 2), (1, 2), (2, 2)])
        path.write_bytes(gzip.compress(GLIDER.encode())[:-9])
        self.refused("glider.rle.gz: the packed map is damaged", "paint", path, "--key", "o=Wall", *SIZE, self.elements)

    def test_standard_input(self) -> None:
        words: list[Word] = [TOP / "lab", "paint", "-", "--key", "o=Wall", *SIZE, self.elements]
        done = subprocess.run(words, input=GLIDER.encode(), capture_output=True, env=around(), check=True)
        self.assertEqual((done.stdout.decode().count("Wall"), done.stderr), (5, b""))
        done = subprocess.run(words, input=b"x = 1, y = 1\n3q!", capture_output=True, env=around(), check=False)
        self.assertEqual((done.returncode, done.stderr), (2, b"lab: standard input: 3q is no part of a pattern in RLE\n"))

    def test_warnings(self) -> None:
        """Of a rule that isn't that of the Game of Life, and of cells beyond the box; the cells are painted all the same."""
        other = "the pattern is made for the rule {}, and not for B3/S23; its atoms do what their element says"
        for rule in ("B36/S23", "WireWorld", "B3/S23:T10,10"):
            path = self.file("map.rle", f"x = 2, y = 1, rule = {rule}\n2o!")
            self.assertEqual(self.painted(path, other.format(rule)), [(0, 0), (1, 0)])
        for rule in ("B3/S23", "b3/s23", "23/3", "Life"):
            self.assertEqual(len(self.painted(self.file("map.rle", f"x = 2, y = 1, rule = {rule}\n2o!"))), 2)
        path = self.file("map.rle", "x = 2, y = 1\n3o$o!")
        says = "2 of its cells lie beyond the 2 columns and 1 rows of its first line; they are painted too"
        self.assertEqual(self.painted(path, says), [(0, 0), (1, 0), (2, 0), (0, 1)])

    def test_other_forms(self) -> None:
        """The other forms of patterns are named, by what they begin with or by their names."""
        for name, text, form in (
            ("a.mc", "[M2] (golly 4.0)\n#R B3/S23\n$$..*$\n", "a macrocell file"),
            ("a", "[M2] (golly 4.0)\n", "a macrocell file"),
            ("a.lif", "#Life 1.05\n#P 0 0\n.*.\n", "a pattern in the form Life 1.05 or 1.06"),
            ("a.txt", "#Life 1.06\n0 0\n", "a pattern in the form Life 1.05 or 1.06"),
        ):
            self.refused(f"{name}: {form}, which is not read; open it in Golly and save it as RLE",
                         "paint", self.file(name, text), "--key", "o=Wall", *SIZE, self.elements)
        self.refused(r"map: '\t' at column 0 of row 0 has no --key",
                     "paint", self.file("map", "\tA"), "--key", "A=Wall", *SIZE, self.elements)
