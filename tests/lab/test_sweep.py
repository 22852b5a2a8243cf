"""Sweeps: each row against a run of elements that were changed by hand."""
import csv
import io

from calls import EXAMPLES, LabCase, feast

SOURCE = """// constant Unsigned far = 9; element Decoy { constant Int near = 1; }
quark Base { /* constant Int near = 1; } */ constant Unsigned near = 1 ;
  Unsigned step() { return near; } }
element Mover : Base {
  EventWindow ew; Random random;
  constant Bool eager = true;
  constant Int(7) shift
    = /* a comment; with = signs */ - 2; // the end
  typedef Unsigned(4) Small; constant Small most = 0xf; Small age;
  Void behave() {
    Unsigned i = random.create(4) + step();
    age += 1;
    if (!ew.isEmpty(i)) return;
    if (shift > 0 && random.oneIn(30 * step())) ew[i] = self;
    else if (shift > 1 && random.oneIn(70)) ew[i] = Stone.instanceof;
    else if (eager || random.oneIn(3)) ew.swap(0, i);
  }
}
"""
STONE = "element Stone { constant Unsigned near = 3; Void behave() { } }\n"
WORLD = "feast 1\ntiles 1 1\nsize 16 16\nseed 5\nattempts 30000\natom 4 4 Mover\natom 9 9 Mover\n"
TILES = WORLD.replace("tiles 1 1", "tiles 2 1").replace("size 16 16", "size 8 16").replace("attempts 30000", "attempts 1000")
TILES = TILES.replace("seed 5", "seed 18446744073709551615") + "order 0 1\n"


class Sweeps(LabCase):
    """Sweeps over constants."""

    def setUp(self) -> None:
        super().setUp()
        self.mover = self.file("mover.ulam", SOURCE)
        self.stone = self.file("stone.ulam", STONE)
        self.world = self.file("w", WORLD)
        self.tiles = self.file("t", TILES)

    def row(self, form: str, world: str, near: str, shift: str) -> list[str]:
        """What a row has behind the seed, from a run of elements that are changed by hand."""
        mover = SOURCE.replace("near = 1 ;", f"near = {near} ;").replace("- 2", shift)
        report = feast(form, self.file("hand.world", world), self.file("hand.ulam", mover), self.stone).splitlines()
        events = sum(len(line.split()) == 6 for line in report)
        given_up = sum(len(line.split()) == 7 for line in report)
        counts = [sum(f" {name} " in line for line in report) for name in ("Mover", "Stone")]
        return [str(events), str(given_up), f"{events / 256:.4f}", *map(str, counts)]

    def test_combinations(self) -> None:
        told = self.passes("sweep", "--set", "Base.near=1,0x2", "--set", "Mover.shift=-2,3,0b1", "--repeat", "2",
                           self.world, self.mover, self.stone)
        header, *rows = csv.reader(io.StringIO(told))
        self.assertEqual(header, ["Base.near", "Mover.shift", "seed", "events", "abandoned", "aeps", "Mover", "Stone"])
        expected = []
        for near in ("1", "0x2"):
            for shift in ("-2", "3", "0b1"):
                for seed in ("5", "8"):
                    row = self.row("run", WORLD.replace("seed 5", f"seed {seed}"), near, shift)
                    expected.append([near, shift, seed, *row])
        self.assertEqual(rows, expected)
        self.assertGreater(len({tuple(row[3:]) for row in rows}), 4)

    def test_stepped(self) -> None:
        told = self.passes("sweep", "--step", "--set", "Base.near=1,2", "--repeat", "2", "--seed", "7",
                           self.tiles, self.mover, self.stone)
        rows = list(csv.reader(io.StringIO(told)))[1:]
        expected = [[near, str(seed), *self.row("step", TILES.replace("18446744073709551615", str(seed))
                                                .replace("order 0 1", f"order seed {seed + 2}"), near, "- 2")]
                    for near in ("1", "2") for seed in (7, 11)]
        self.assertEqual(rows, expected)
        self.assertTrue(all(int(row[3]) > 0 for row in rows))

    def test_threads(self) -> None:
        told = self.passes("sweep", "--set", "Stone.near=1", "--repeat", "3", self.tiles, self.mover, self.stone)
        rows = list(csv.DictReader(io.StringIO(told)))
        self.assertEqual([row["seed"] for row in rows], ["18446744073709551615", "3", "7"])
        self.assertEqual([int(row["events"]) + int(row["abandoned"]) for row in rows], [2000] * 3)

    def test_other_values(self) -> None:
        told = self.passes("sweep", "--set", "Mover.eager=true,false", "--set", "Mover.most=0,15",
                           self.world, self.mover, self.stone)
        self.assertEqual([row[:2] for row in csv.reader(io.StringIO(told))][1:],
                         [["true", "0"], ["true", "15"], ["false", "0"], ["false", "15"]])

    def test_bytes_of_comments(self) -> None:
        """Comments may have any bytes, and stay as they are."""
        self.mover.write_bytes(SOURCE.replace("far = 9", "fär = \x00").encode("latin-1"))
        self.world.write_bytes(WORLD.encode().replace(b"size", b"# \xff\nsize"))
        told = self.passes("sweep", "--set", "Base.near=2", self.world, self.mover, self.stone)
        self.assertEqual(list(csv.reader(io.StringIO(told)))[1], ["2", "5", *self.row("run", WORLD, "2", "- 2")])
        self.mover.write_bytes(SOURCE.replace("constant Bool", "/* ä */ constant Bool").encode("latin-1"))
        self.refused(f"{self.mover}:6:25: E34", "sweep", "--set", "Mover.eager=1", self.world, self.mover, self.stone)

    def test_refused_values(self) -> None:
        files = [self.world, self.mover, self.stone]
        self.refused(f"{self.mover}:9:45: E34 bad constant (with Mover.most=16)",
                     "sweep", "--set", "Mover.most=3,16", *files)
        self.refused(f"{self.mover}:6:17: E34 bad constant (with Base.near=1, Mover.eager=1)",
                     "sweep", "--set", "Base.near=1,2", "--set", "Mover.eager=true,1", *files)
        self.refused("E31 unknown name (with Mover.shift=nothing)", "sweep", "--set", "Mover.shift=nothing", *files)

    def test_refused_names(self) -> None:
        files = [self.world, self.mover, self.stone]
        known = "they have Base.near, Mover.eager, Mover.shift, Mover.most, Stone.near"
        for name in ("Mover.near", "Mover.far", "Decoy.near", "Stone.most", "Nobody.near"):
            self.refused(f"the files have no constant {name}; {known}", "sweep", "--set", f"{name}=1", *files)
        self.refused(f"--set near=1: the files have no constant near; {known}", "sweep", "--set", "near=1", *files)
        for text in ("Mover.near", "Mover.near=", "Mover.near=1,,2", "Mover.near=1; }", "Base.near=1;}", "Base.near=1,-", "A.b.c=1"):
            self.refused(f"--set {text}: it has to be Element.constant=A,B,..", "sweep", "--set", text, *files)

    def test_refused_words(self) -> None:
        files = [self.world, self.mover, self.stone]
        words = ["sweep", "--set", "Base.near=1"]
        for option in ("repeat", "legs", "jobs"):
            self.refused(f"--{option} 0: it has to be at least 1", *words, f"--{option}", "0", *files)
        self.refused("--seed 18446744073709551616: a seed is", *words, "--seed", str(2**64), *files)
        self.refused("required: WORLD, FILE", *words)
        self.refused("--set Base.near: it is given twice", *words, "--set", "Base.near=2", *files)

    def test_refused_inputs(self) -> None:
        words = ["sweep", "--set", "Base.near=1"]
        self.refused("E73 unknown element", "sweep", "--set", "Stone.near=1", self.world, self.stone)
        self.refused("its attempts have to be drawn", *words, EXAMPLES / "walk.world", self.mover, self.stone)
        baseless = self.file("mover.ulam", "\n\n\n" + SOURCE.split("\n", 3)[3])
        self.refused(f"{self.mover}:4:17: E37", *words, self.world, baseless, self.stone)
