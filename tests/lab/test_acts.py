"""Acts on the atoms of a chain: the lines of the chain file that each stands for, and how they stand in its record."""
import films
from calls import EXAMPLES, LabCase, here
from kept_chain import atoms, begins, contents, packs_of
from test_chain import ChainCase, lines_of

from feast_lab.lab.base.limits import MOST_ATTEMPTS
from feast_lab.lab.base.program import Program
from feast_lab.lab.chain.acts import Act, Acts, noise
from feast_lab.lab.formats.layout import Layout
from feast_lab.lab.formats.world import World

ELEMENTS = """element Cell { Int(5) level; Unary(4) ones; Bool on; EventWindow ew; Void behave() { } }
element Wall { EventWindow ew; Void behave() { } }
"""
ZERO = "0" * 18
# level 11101, ones 0011, on 1, behind a first bit of 0
FULL = f"{int('0111010011' + '1' + '0' * 61, 2):018x}"
SMALL = "feast 2\ntiles 2 1\nsize 8 8\noff 1\nseed 3\nattempts 10\n"


class Texts(LabCase):
    """What --at says, and the lines that it stands for."""

    def setUp(self) -> None:
        super().setUp()
        self.world = World.read(self.file("w", SMALL))
        self.layout = Layout.of(Program.find(), [self.file("e.ulam", ELEMENTS)])

    def test_lines(self) -> None:
        """Each rectangle has a line, and a state is packed."""
        for text, lines in [
            ("1:clear:1,0", ["clear 1 0 1 1"]),
            ("1:clear:0,1+7,7,1,1+3,3,2,2", ["clear 0 1 1 1", "clear 7 7 1 1", "clear 3 3 2 2"]),
            ("1:put:Wall:6,6,2,2", [f"put 6 6 2 2 Wall {ZERO}"]),
            ("1:put:Cell:level=-3,ones=2,on=true:0,0+5,1", [f"put 0 0 1 1 Cell {FULL}", f"put 5 1 1 1 Cell {FULL}"]),
            ("1:erase:0.000000001:0,0,16,8", ["erase 0.000000001 0 0 16 8"]),
            ("every:7:flip:1:0,0,16,8", ["flip 1 0 0 16 8"]),
            ("1:attempts:7", ["attempts 7"]),
        ]:
            act = Act.of(text, self.world, self.layout)
            self.assertEqual((act.text, list(act.lines)), (text, lines))
        self.assertEqual(noise("0.25", self.world), "every:1:flip:0.25:0,0,16,8")

    def test_order(self) -> None:
        """Acts before many legs come first in a chain file, then those of single legs by their legs, each in their order."""
        texts = ["9:clear:0,0", "every:3:clear:1,1", "2:attempts:4", "9:put:Wall:0,0", "2:clear:5,5", "every:1:erase:0:0,0", "12:clear:0,0"]
        acts = Acts.of(Act.of(text, self.world, self.layout) for text in texts)
        every = ["every 3 clear 1 1 1 1", "every 1 erase 0 0 0 1 1"]
        second, ninth = ["act 2 attempts 4", "act 2 clear 5 5 1 1"], ["act 9 clear 0 0 1 1", f"act 9 put 0 0 1 1 Wall {ZERO}"]
        self.assertEqual(acts.lines(1, 11).splitlines(), [*every, *second, *ninth])
        self.assertEqual(acts.lines(9, 9).splitlines(), [*every, *ninth])
        self.assertEqual(acts.lines(3, 8).splitlines(), every)
        self.assertEqual([act.told for act in acts.before(9)], ["clear:1,1", "erase:0:0,0", "clear:0,0", "put:Wall:0,0"])
        self.assertEqual((acts.attempts(2), acts.attempts(9)), (4, None))

    def test_refused(self) -> None:
        for text, says in [
            ("1:clear:0,0,1", "0,0,1 is neither a site X,Y nor a rectangle"),
            ("1:clear:", "it has to be LEG:clear:AREA"), ("0:clear:0,0", "with legs counted from 1"), ("1:fill:0,0", "it has to be"),
            ("1:clear:0,0,17,1", "0,0,17,1 is no rectangle of the plane, which has 16 by 8 sites"),
            ("1:clear:16,0", "16,0 is no site of the plane"), ("1:clear:0,0,0,1", "no rectangle"), ("1:clear:0,7,1,2", "no rectangle"),
            ("1:clear:0,0+", "nothing is neither"), ("1:clear:-1,0", "-1,0 is neither"),
            ("1:put:Wall", "it has to be"), ("1:put:Fish:0,0", "no file has an element Fish; there are Cell, Wall"),
            ("1:put:Cell:level=16:0,0", "Cell.level can't be 16: it goes from -16 to 15"),
            ("1:put:Cell:tall=1:0,0", "Cell has no member tall"), ("1:put:Cell:on=1:on=1:0,0", "it has to be"),
            ("1:put:Cell:on=maybe:0,0", "maybe is no number"), ("1:put:Cell:on=1,on=1:0,0", "on is given twice"),
            ("1:put:Cell:level:0,0", "level has to be member=value"), ("1:put:Wall:8,0", "tile 1 is off, so it has no atoms"),
            ("1:erase:0,0,1,1", "0,0,1,1 is no probability"), ("1:erase:1.5:0,0", "1.5 is no probability from 0 to 1"),
            ("1:erase:-1:0,0", "-1 is no probability"), ("1:flip:nan:0,0", "nan is no probability"), ("1:flip::0,0", "nothing is no prob"),
            ("1:flip:.5:0,0", ".5 is no probability"), ("1:flip:0.0123456789:0,0", "at most nine digits"), ("1:flip:1.0:0,0", "1.0 is no prob"),
            ("1:flip:1:0,0:seed=7", "0,0:seed=7 is neither"), ("every:0:clear:0,0", "it has to be"), ("every:2:attempts:5", "it has to be"),
            (f"1:attempts:{MOST_ATTEMPTS + 1}", f"a tile of this world makes from 0 to {MOST_ATTEMPTS} attempts"), ("1:attempts:-1", "makes from 0"),
        ]:
            with self.assertRaisesRegex(Exception, rf"^{text[:60].replace('+', '[+]')}") as caught:
                Act.of(text, self.world, self.layout)
            self.assertIn(says, str(caught.exception), text)


class Record(ChainCase):
    """Acts of a chain."""

    ACTS = ("2:clear:0,0,8,8", "2:put:Regulator:age=9:1,1+4,4,2,1", "3:erase:0.5:0,0,16,16",
            "3:flip:0.75:0,0,16,16", "4:attempts:60", "every:2:put:Resource:15,15")

    def at(self, *acts: str) -> list[str]:
        """The options for some acts."""
        return [word for act in acts for word in ("--at", act)]

    def test_acts(self) -> None:
        """Each leg begins with what its acts make of the atoms before, and the audit says so."""
        self.passes(*self.words(5, "--step", "--keep", "reports", *self.at(*self.ACTS)))
        left = {leg: films.plane_of(atoms(self.chain, leg)) for leg in range(6)}
        begun = {leg: films.plane_of(begins(self.chain, leg)) for leg in range(1, 6)}
        corner, state = {(15, 15): f"Resource {ZERO}"}, f"{9 << 62:018x}"
        put = dict.fromkeys([(1, 1), (4, 4), (5, 4)], f"Regulator {state}")
        cleared = {site: atom for site, atom in (left[1] | corner).items() if not (site[0] < 8 and site[1] < 8)}
        self.assertEqual(begun[2], cleared | put)
        self.assertEqual([begun[1], begun[5], begun[4]], [left[0], left[4], left[3] | corner])
        self.assertTrue(begun[3].keys() < left[2].keys())
        flips = [(int(begun[3][site].split()[1], 16) ^ int(left[2][site].split()[1], 16)).bit_count() for site in begun[3]]
        self.assertTrue({1} <= set(flips) <= {0, 1})
        self.assertEqual([row["attempts"] for row in self.rows()], ["0", "2000", "2000", "2000", "240", "2000"])
        self.assertEqual(lines_of(self.chain / "acts.txt"), list(self.ACTS))
        self.assertEqual(self.passes("chain", "--audit", self.chain), "yes\n")

    def test_noise(self) -> None:
        """--noise is an act before each leg, all over the plane; it goes on with the chain, and is refused for legs that are done."""
        self.passes(*self.words(2, "--step", "--keep", "reports", "--noise", "0.5"))
        self.passes(*self.words(3, "--step", "--keep", "reports", "--noise", "0.5"))
        self.assertEqual(lines_of(self.chain / "acts.txt"), ["every:1:flip:0.5:0,0,16,16"])
        self.refused("--at every:1:flip:0.25:0,0,16,16: legs are done, up to leg 3", *self.words(4, "--step", "--keep", "reports", "--noise", "0.25"))
        self.refused("--at every:1:flip:2:0,0,16,16: 2 is no probability", *self.words(4, "--step", "--keep", "reports", "--noise", "2"))
        for leg in (1, 2, 3):
            self.assertNotEqual(begins(self.chain, leg), atoms(self.chain, leg - 1))
        self.assertEqual(self.passes("chain", "--audit", self.chain), "yes\n")
        self.passes("chain", "--from", self.chain, "2", self.room / "branch", "--legs", "3")
        self.assertEqual(packs_of(self.room / "branch").report(3).data, packs_of(self.chain).report(3).data)

    def test_audit(self) -> None:
        """An act that is on record otherwise than it was done is found."""
        self.passes(*self.words(4, "--step", "--keep", "reports", *self.at(*self.ACTS)))
        kept = (self.chain / "acts.txt").read_text()
        for number, (old, new, says) in enumerate([
            ("age=9", "age=8", "no leg 2: "), ("0.75", "0.5", "no leg 3: "), ("attempts:60", "attempts:61", "no leg 4: "),
            ("every:2", "every:3", "no leg 2: "),
        ]):
            self.assertIn(old, kept)
            (self.chain / "acts.txt").write_text(kept.replace(old, new))
            done = here("chain", "--audit", self.chain)
            self.assertEqual((done.status, done.said), (1, ""), number)
            self.assertTrue(done.wrote.startswith(says), done.wrote)
        (self.chain / "acts.txt").write_text(kept.replace("3:erase", "3:shoot"))
        self.refused("acts.txt:3: 3:shoot:0.5:0,0,16,16: it has to be", "chain", "--audit", self.chain)
        (self.chain / "acts.txt").write_text(kept)
        self.assertEqual(self.passes("chain", "--audit", self.chain), "yes\n")

    def test_later_acts(self) -> None:
        """Acts given on the way, before their leg, make the chain that would have come of giving them at once."""
        self.passes(*self.words(4, "--step", *self.at("2:clear:0,0,8,8", "4:flip:1:0,0,16,16")))
        wanted = {name: data for name, data in contents(self.chain).items() if name != "chain.json"}
        for file in sorted(self.chain.rglob("*"), reverse=True):
            file.rmdir() if file.is_dir() else file.unlink()
        self.passes(*self.words(1, "--step"))
        self.passes(*self.words(2, "--step", "--at", "2:clear:0,0,8,8"))
        self.refused("--at 2:clear:0,0,8,9: leg 2 is done, and nothing of the kind was done before it",
                     *self.words(4, "--step", "--at", "2:clear:0,0,8,9"))
        self.refused("--at 1:attempts:5: leg 1 is done", *self.words(4, "--step", "--at", "1:attempts:5"))
        self.refused("leg 2 is done", *self.words(4, "--step", *self.at("2:clear:0,0,8,8", "2:clear:0,0,8,8")))
        for _ in range(2):
            self.passes(*self.words(4, "--step", *self.at("2:clear:0,0,8,8", "4:flip:1:0,0,16,16")))
        self.assertEqual({name: data for name, data in contents(self.chain).items() if name != "chain.json"}, wanted)

    def test_film(self) -> None:
        """A film shows each moment before acts and behind them, and names the acts."""
        self.passes(*self.words(5, "--step", "--keep", "reports", *self.at(*self.ACTS, "6:clear:0,0", "9:clear:0,0")))
        self.passes("film", self.chain, "-o", self.room / "film.html")
        html = (self.room / "film.html").read_text()
        events = [int(row["events"]) for row in self.rows()]
        second, third = sum(events[:2]), sum(events[:3])
        self.assertEqual(films.head(html)["acts"], [
            {"events": second, "text": "clear:0,0,8,8"}, {"events": second, "text": "put:Regulator:age=9:1,1+4,4,2,1"},
            {"events": third, "text": "erase:0.5:0,0,16,16"}, {"events": third, "text": "flip:0.75:0,0,16,16"}])
        shots = films.shots(html)
        self.assertEqual([shot.events for shot in shots].count(third), 2)
        for leg, moment in [(2, second), (3, third)]:
            before, after = (shot.atoms for shot in shots if shot.events == moment)
            self.assertEqual(before, films.plane_of(atoms(self.chain, leg - 1)))
            self.assertEqual(after, films.plane_of(begins(self.chain, leg)))

    def test_refused(self) -> None:
        for text, says in [("1:clear:0,0,17,1", "no rectangle of the plane"), ("1:fill:0,0,1,1", "it has to be LEG:clear"),
                           ("1:put:Nothing:0,0", "no file has an element Nothing"), ("1:erase:2:0,0,1,1", "no probability")]:
            self.refused(f"--at {text}: ", *self.words(1, "--at", text))
            self.refused(says, *self.words(1, "--at", text))
        self.refused("--at 1:clear:0,0,9,9: 0,0,9,9 is no rectangle", "chain", self.chain, "--legs", "1", "--at", "1:clear:0,0,9,9",
                     self.file("w", "feast 1\ntiles 1 1\nsize 8 8\nseed 1\nattempts 1\n"), EXAMPLES / "stone.ulam")
