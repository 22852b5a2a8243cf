"""Measures of members: in the course of a chain, against numbers by hand and against the verb atoms."""
import csv
import io

from calls import EXAMPLES, LabCase, here
from kept_chain import told

ELEMENTS = """quark Part { Unsigned(4) count; Bool on; }
quark Base { Unsigned(3) rank; }
element Cell : Base { Int(5) level; Unary(4) ones; Int(3) list[2]; Part part; EventWindow ew; Void behave() { } }
element Wide { Unsigned(64) level; EventWindow ew; Void behave() { } }
"""


def cell(rank: int, level: int, ones: str, items: tuple[int, int], count: int, on: int) -> str:
    """The digits of a cell, behind a first bit of 0."""
    bits = f"{rank:03b}{level % 32:05b}{ones}{items[0] % 8:03b}{items[1] % 8:03b}{count:04b}{on}"
    return f"{int(('0' + bits).ljust(72, '0'), 2):018x}"


CELLS = [cell(5, -3, "0011", (3, -4), 9, 1), cell(0, 7, "1111", (-1, 0), 9, 0), cell(2, -3, "1000", (2, 2), 0, 1)]
WIDE = f"{int(('0' + '1' * 64).ljust(72, '0'), 2):018x}"
WORLD = "feast 1\ntiles 1 1\nsize 8 8\nseed 1\nattempts 0\n" + "".join(
    f"atom {x} 0 Cell {state}\n" for x, state in enumerate(CELLS)) + f"atom 0 1 Wide {WIDE}\natom 1 1 Wide {WIDE}\n"
BY_HAND = [
    ("count", "Cell.level=-3", "2"), ("count", "Cell.level!=-3", "1"), ("count", "Cell.part.on=true", "2"),
    ("count", "Cell.part.on=false", "1"), ("count", "Cell.rank>=2", "2"), ("count", "Cell.rank>2", "1"),
    ("count", "Cell.list[1]<=0", "2"), ("count", "Cell.list[1]<0", "1"), ("count", "Cell.ones=0b100", "1"),
    ("count", "Cell.part.count=0x9,level<0", "1"), ("count", "Wide.level=0", "0"), ("count", "Wide.level=0xffffffffffffffff", "2"),
    ("mean", "Cell.level", "0.3333"), ("sum", "Cell.level", "1"), ("min", "Cell.level", "-3"), ("max", "Cell.level", "7"),
    ("sum", "Cell.ones", "7"), ("mean", "Cell.list[0]", "1.3333"), ("min", "Cell.list[1]", "-4"),
    ("max", "Cell.rank", "5"), ("sum", "Cell.part.count", "18"), ("mean", "Cell.part.on", "0.6667"),
    ("sum", "Wide.level", str(2 * (2**64 - 1))), ("max", "Wide.level", str(2**64 - 1)),
]
FISH = ["--mean", "Fish.age", "--sum", "Shark.age", "--min", "Fish.age", "--max", "Shark.hunger", "--count", "Shark.hunger=2,age>3"]
NAMES = ["mean(Fish.age)", "sum(Shark.age)", "min(Fish.age)", "max(Shark.hunger)", "count(Shark.hunger=2,age>3)"]


class Measures(LabCase):
    """Columns of the course."""

    def setUp(self) -> None:
        super().setUp()
        self.chain = self.room / "chain"
        text = (EXAMPLES / "wator.world").read_text()
        self.world = self.file("w", text.replace("attempts 400000", "attempts 20000"))
        self.assertNotEqual(self.world.read_text(), text)

    def course(self) -> list[dict[str, str]]:
        """The rows of the course."""
        return list(csv.DictReader(io.StringIO((self.chain / "course.csv").read_text())))

    def words(self, legs: int, *more: str) -> list[str]:
        """The words of a chain of fish and sharks."""
        return ["chain", str(self.chain), "--legs", str(legs), *more, str(self.world), str(EXAMPLES / "wator.ulam")]

    def by_atoms(self, leg: int) -> list[str]:
        """What the measures come to at the end of a leg, from the rows of the verb atoms."""
        said = self.passes("atoms", self.file("atoms", told(self.chain, leg, "atoms")), EXAMPLES / "wator.ulam")
        rows = list(csv.DictReader(io.StringIO(said)))
        fish = [int(row["age"]) for row in rows if row["element"] == "Fish"]
        sharks = [(int(row["age"]), int(row["hunger"])) for row in rows if row["element"] == "Shark"]
        self.assertGreater(min(len(fish), len(sharks)), 5)
        return [f"{sum(fish) / len(fish):.4f}", str(sum(age for age, _ in sharks)), str(min(fish)),
                str(max(hunger for _, hunger in sharks)), str(sum(hunger == 2 and age > 3 for age, hunger in sharks))]

    def test_by_hand(self) -> None:
        """Members of parts and of bases, items of arrays, all signs, and numbers of 64 bits."""
        elements, world = self.file("e.ulam", ELEMENTS), self.file("by-hand", WORLD)
        options = [word for kind, said, _ in BY_HAND for word in (f"--{kind}", said)]
        self.passes("chain", self.chain, "--legs", "1", *options, world, elements)
        for row in self.course():
            self.assertEqual(list(row.items())[7:], [(f"{kind}({said})", number) for kind, said, number in BY_HAND])

    def test_none(self) -> None:
        """Of no atom a count and a sum are 0, and the others are empty."""
        elements = self.file("e.ulam", ELEMENTS)
        world = self.file("empty", "feast 1\ntiles 1 1\nsize 8 8\nseed 1\nattempts 0\n")
        options = [word for kind in ("mean", "sum", "min", "max") for word in (f"--{kind}", "Cell.level")]
        self.passes("chain", self.chain, "--legs", "1", *options, "--count", "Cell.level=0", world, elements)
        self.assertEqual([list(row.values())[7:] for row in self.course()], [["", "0", "", "", "0"]] * 2)

    def test_course(self) -> None:
        """Each row has what the atoms of its leg come to, and the audit tries that too."""
        self.passes(*self.words(3, "--keep", "reports", *FISH))
        for leg, row in enumerate(self.course()[1:], 1):
            self.assertEqual([row[name] for name in NAMES], self.by_atoms(leg))
        self.assertEqual(self.passes("chain", "--audit", self.chain), "yes\n")
        path = self.chain / "course.csv"
        path.write_text(path.read_text().replace(f",{self.course()[2][NAMES[0]]},", ",9.0000,"))
        done = here("chain", "--audit", self.chain)
        self.assertEqual((done.status, done.wrote), (1, "no leg 2: its row in the course is another\n"))

    def test_added(self) -> None:
        """Measures that are named later are taken of the legs that are done too, and stay."""
        self.passes(*self.words(3, *FISH))
        whole = (self.chain / "course.csv").read_bytes()
        self.chain = self.room / "other"
        self.passes(*self.words(1, *FISH[:2]))
        self.passes(*self.words(2))
        self.passes(*self.words(3, *FISH[2:], *FISH[:2]))
        self.assertEqual((self.chain / "course.csv").read_bytes(), whole)

    def test_until(self) -> None:
        """A chain is over with the first leg at whose end the rule holds, and stays so."""
        self.passes(*self.words(8, *FISH))
        course = self.course()
        limit = sorted(float(row[NAMES[0]]) for row in course[1:])[5]
        last = next(at for at, row in enumerate(course) if float(row[NAMES[0]]) >= limit)
        self.assertTrue(1 <= last < 8)
        few = min(int(row["Shark"]) for row in course[1:])
        end = next(at for at, row in enumerate(course) if int(row["Shark"]) == few)
        for rule, legs in [(f"mean(Fish.age)>={limit}", last), (f"Atoms.Shark={few}", end), ("Atoms.Shark > 0", 0),
                           ("max(Shark.hunger)<-1", 8), ("count(Shark.hunger>0,age>=0)=0", 0)]:
            self.chain = self.room / f"until{legs}{rule[0]}"
            for _ in range(2):
                self.passes(*self.words(8, "--until", rule))
                self.assertEqual(len(self.course()) - 1, legs, rule)

    def test_until_without_atoms(self) -> None:
        """A rule about a mean of no atom doesn't hold."""
        elements = self.file("e.ulam", ELEMENTS)
        world = self.file("empty", "feast 1\ntiles 1 1\nsize 8 8\nseed 1\nattempts 0\n")
        self.passes("chain", self.chain, "--legs", "2", "--until", "mean(Cell.level)<1", world, elements)
        self.assertEqual(len(self.course()), 3)

    def test_refused(self) -> None:
        for option, said, says in [
            ("count", "Shark", "--count Shark: it has to be Element.member=VALUE"),
            ("count", "Shark.hunger", "--count Shark.hunger: it has to be Element.member=VALUE"),
            ("count", "Shark.hunger=", "it has to be Element.member=VALUE"),
            ("count", "Shark.hunger=1,", "it has to be Element.member=VALUE"),
            ("count", "Shark.hunger==1", "it has to be Element.member=VALUE"),
            ("count", "Shark.hunger=few", "--count Shark.hunger=few: few is no number"),
            ("count", "Shark.hunger=64", "Shark.hunger is never 64: it goes from 0 to 63"),
            ("count", "Shark.hunger>-1", "Shark.hunger is never -1: it goes from 0 to 63"),
            ("count", "Whale.age=1", "--count Whale.age=1: no file has an element Whale; there are Fish, Shark"),
            ("mean", "Fish.hunger", "--mean Fish.hunger: Fish has no member hunger; it has age"),
            ("mean", "Fish.age=1", "--mean Fish.age=1: it has to be Element.member"),
            ("sum", "age", "--sum age: it has to be Element.member"),
            ("until", "Atoms.Whale=0", "--until Atoms.Whale=0: no file has an element Whale"),
            ("until", "Atoms.Shark", "--until Atoms.Shark: it has to be Atoms.Element=N"),
            ("until", "median(Fish.age)>1", "--until median(Fish.age)>1: median(Fish.age): it has to be one of count("),
            ("until", "mean(Fish.hunger)>1", "Fish has no member hunger"),
        ]:
            self.refused(says, *self.words(1, f"--{option}", said))
