"""Worlds whose atoms lie at random."""
from collections import Counter
from math import sqrt

from calls import LabCase, feast

ELEMENTS = """element Fish { Unsigned(4) age; EventWindow ew; Void behave() { } }
element Shark { Int(4) hunger; Bool old; EventWindow ew; Void behave() { } }
"""


class Scatter(LabCase):
    """The verb scatter."""

    def setUp(self) -> None:
        super().setUp()
        self.elements = self.file("e.ulam", ELEMENTS)
        self.frame = ["--size", "64", "64", "--tiles", "2", "1", "--seed", "7"]

    def filled(self, *words: str, frame: list[str] | None = None) -> str:
        """The world that the words make."""
        return self.passes("scatter", *words, *(self.frame if frame is None else frame), self.elements)

    def test_parts(self) -> None:
        """The numbers of atoms are those of their parts, within four standard errors, with the members that are given."""
        told = self.filled("--fill", "Fish=0.3", "--fill", "Shark=0.05:hunger=-3,old=true", "--fill", "Fish=.25:age=9")
        lines = told.splitlines()
        self.assertEqual(lines[:3], ["feast 1", "tiles 2 1", "size 64 64"])
        atoms = [line.split() for line in lines[3:]]
        counts = Counter((name, state) for _, _, _, name, state in atoms)
        shark = f"{int('0' + '1101' + '1' + '0' * 66, 2):018x}"
        fish = f"{int('0' + '1001' + '0' * 67, 2):018x}"
        self.assertEqual(set(counts), {("Fish", "0" * 18), ("Shark", shark), ("Fish", fish)})
        for atom, part in ((("Fish", "0" * 18), 0.3), (("Shark", shark), 0.05), (("Fish", fish), 0.25)):
            self.assertLess(abs(counts[atom] - 8192 * part), 4 * sqrt(8192 * part * (1 - part)))
        places = [(int(y), int(x)) for _, x, y, *_ in atoms]
        self.assertEqual(places, sorted(set(places)))
        half = sum(x < 64 for _, x in places)  # as many in one tile as in the other
        self.assertLess(abs(half - len(places) / 2), 2 * sqrt(len(places)))
        self.assertIn("journal 0", feast("step", self.file("w", told), self.elements))

    def test_ends(self) -> None:
        """A part of 0 gives no atom, one of 1 an atom at each site, and parts that come to 1 fill the plane."""
        small = ["--size", "8", "9", "--seed", "3"]
        self.assertEqual(self.filled("--fill", "Fish=0", frame=small), "feast 1\ntiles 1 1\nsize 8 9\n")
        for fills in (["Fish=1"], ["Fish=0.5", "Shark=0.5"], ["Fish=0.1"] * 7 + ["Shark=0.3"]):
            told = self.filled(*(word for fill in fills for word in ("--fill", fill)), frame=small)
            self.assertEqual(told.count("atom "), 72)

    def test_seeds(self) -> None:
        """The same words make the same world, and another seed another; the attempts have the same seed."""
        fills = ["--fill", "Fish=0.4"]
        told = self.filled(*fills)
        self.assertEqual(self.filled(*fills), told)
        self.assertNotEqual(self.filled(*fills, frame=[*self.frame[:-1], "8"]), told)
        drawn = self.filled(*fills, "--attempts", "9", "--order", "500000")
        front, _, back = told.partition("atom ")
        self.assertEqual(drawn, f"{front}seed 7\nattempts 9\natom {back}order seed 500000\n")

    def test_refused(self) -> None:
        for text, says in [
            ("Fish", "--fill Fish: it has to be Element=PART"),
            ("Fish=30%", "--fill Fish=30%: it has to be Element=PART"),
            ("Fish=-0.1", "it has to be Element=PART"),
            ("Fish=1.01", "--fill Fish=1.01: a part of the sites is from 0 to 1"),
            ("Fish=0.1:age", "--fill Fish=0.1:age: age has to be member=value"),
            ("Fish=0.1:age=16", "Fish.age can't be 16: it goes from 0 to 15"),
            ("Fish=0.1:depth=1", "Fish has no member depth"),
            ("Whale=0.1", "--fill Whale=0.1: no file has an element Whale; there are Fish, Shark"),
        ]:
            self.refused(says, "scatter", "--fill", text, *self.frame, self.elements)
        self.refused("the parts of the sites come to 1.1, and to 1 at most",
                     "scatter", "--fill", "Fish=0.6", "--fill", "Shark=0.5", *self.frame, self.elements)
        self.refused("--seed -1: a seed is from 0", "scatter", "--fill", "Fish=1", *self.frame[:-1], "-1", self.elements)
        self.refused("--attempts 500001: 2 tiles may have", "scatter", "--fill", "Fish=1", *self.frame, "--attempts", "500001",
                     self.elements)
        self.refused("--size 65 8: both", "scatter", "--fill", "Fish=1", "--size", "65", "8", "--seed", "1", self.elements)
        self.refused("required: --seed", "scatter", "--fill", "Fish=1", "--size", "8", "8", self.elements)
