"""Worlds that are made in Python: from numbers and arrays, from drawings, and at random."""
from calls import feast
from packaged import PackageCase

MADE = "import feast_lab, numpy\nWorld = feast_lab.World\n"


class Worlds(PackageCase):
    """What comes of a world's calls, by its text and by what the program makes of it."""

    def errors_of(self, script: str, *calls: str) -> list[str]:
        """What calls are refused with."""
        tries = "".join(f"try: {call}\nexcept feast_lab.LabError as error: print(error)\n" for call in calls)
        return self.says(MADE + script + tries)

    def test_text(self) -> None:
        """Its text is that of a file, which the program takes; a world that is read is the same."""
        script = (MADE + "made = World(elements, tiles=(2, 1), size=(8, 8), seed=3, attempts=60, order=500)\n"
                  "made.put('Wall', 9, 5).put('Cell', 1, 1).save('made.world')\n"
                  "print(made, made.shape, made.sites, len(made))\n"
                  "print(World.read(world, elements).text == made.text == World.read('made.world', elements).text)\n"
                  "print(feast_lab.run(made, step=True).bytes == feast_lab.run(world, elements, step=True).bytes)\n")
        self.assertEqual(self.says(script), ["<World of 2x1 tiles of 8x8 sites: 2 atoms> (8, 16) 128 2", "True", "True"])
        self.assertEqual(feast("step", self.room / "made.world", self.elements), feast("step", self.world, self.elements))

    def test_arrays(self) -> None:
        """Columns, rows and members go together as NumPy's arrays do; a plane gives back what was put."""
        script = (MADE + "ages = numpy.arange(6).reshape(2, 3)\n"
                  "made = World(elements, size=(8, 8)).put('Cell', [0, 1, 2], [[4], [5]], age=ages, **{'list[1]': -3})\n"
                  "print((made.grid('Cell.age')[4:6, :3] == ages).all(), made.grid('Cell.age').count(), made.plane.atoms.tolist()[5][4:])\n"
                  "print(made.put('Wall', 0, 4).plane.counts(), made.clear([0, 7], 4).plane.counts(), '<svg' in made._repr_svg_())\n"
                  "print(World(elements, size=(8, 8)).put('Cell', numpy.array([3], 'u8'), True, age=127).text.splitlines()[-1])\n")
        self.assertEqual(self.says(script), ["True 6 (5, 0, -3)", "{'Cell': 5, 'Wall': 1} {'Cell': 5, 'Wall': 0} True",
                                             f"atom 3 1 Cell {127 << 64:018x}"])

    def test_drawings(self) -> None:
        """A drawing in letters and a pattern in RLE put the same atoms, where they are wanted."""
        script = (MADE + "keys = {'#': 'Wall', 'o': 'Cell:age=3'}\n"
                  "one = World(elements, size=(8, 8)).draw('#.o\\n.#.', keys, 2, 5)\n"
                  "print([line[:15] for line in one.text.splitlines()[5:]])\n"
                  "two = World(elements, size=(8, 8)).draw('x = 3, y = 2\\nA.B$.A!', {'A': 'Wall', 'B': 'Cell:age=3'}, 2, 5)\n"
                  "print(one.text == two.text)\n")
        self.assertEqual(self.says(script), ["['atom 2 5 Wall 0', 'atom 4 5 Cell 0', 'atom 3 6 Wall 0']", "True"])

    def test_fill(self) -> None:
        """What is filled at random is what a sweep fills with that seed; no atom and no tile that is off is written over."""
        self.passes("sweep", "--into", self.room / "sweep", "--set", "fill.Cell=0.3", "--set", "attempts=0", "--seed", "9", self.world, self.elements)
        atoms = (self.room / "sweep" / "sweep.csv").read_text().splitlines()[1].split(",")[-2]
        script = (MADE + "made = World.read(world, elements).fill('Cell', 0.3, 9, age=2)\n"
                  "print(made.plane.counts()['Cell'], made.grid('Wall').count(), set(made.grid('Cell.age').compressed().tolist()))\n"
                  "off = World(elements, tiles=(2, 1), size=(8, 8), off=[1]).fill('Cell', 1, 9)\n"
                  "print(len(off), off.sites, len(World(elements, size=(8, 8)).fill('Cell', 0, 9)), off.text.split()[:2])\n")
        self.assertEqual(self.says(script), [f"{atoms} 1 {{0, 2}}", "64 64 0 ['feast', '2']"])

    def test_refused(self) -> None:
        """What no world has is refused in a line, and nothing of the call is done."""
        self.assertEqual(self.errors_of(
            "made = World(elements, tiles=(2, 1), size=(8, 8), off=[1])\n",
            "made.put('Cell', [0, 16], 0)", "made.put('Cell', 9, 0)", "made.put('Cell', 0.5, 0)", "made.put('Cell', 0, 0, age=[1, 128])",
            "made.put('Cell', [1, 2], [1, 2, 3])", "made.put('Cell', [[1], [1, 2]], 0)", "made.put('Cow', 0, 0)", "made.put('Cell', 0, 0, size=1)",
            "made.fill('Cell', 1.5, 3)", "made.draw('ab', {'a': 'Cell'})", "World(elements, size=(7, 8))", "World(elements, off=[1])",
            "World(elements, seed=-1)", "World(elements, attempts=1000001)", "feast_lab.run(world)", "feast_lab.run(made, attempts=-1)",
            "print(len(made))"), [
            "the site 16 0 lies outside the plane of 16 by 8 sites", "the site 9 0 lies on the tile 1, which is off",
            "x: these have to be whole numbers of at most 64 bits, and not float64", "Cell.age can't be 128: it goes from 0 to 127",
            "put: x, y and members have the shapes (2,), (3,)", "x: lists within a list have to be of one length",
            "no file has an element Cow; there are Cell, Wall", "Cell has no member size; it has age, list[0], list[1]",
            "fill: a density is from 0 to 1, not 1.5", "draw: b at column 1 of row 0 has no key", "size 7 8: both have to be from 8 to 64",
            "off: there is no tile 1; the tiles are 0 to 0", "seed -1: a seed is from 0 to 18446744073709551615",
            "attempts 1000001: 1 tiles may have from 0 to 1000000 each", "elements: at least one file has to be named",
            "attempts=-1: each tile may make from 0 to 1000000; a chain makes more", "0"])
