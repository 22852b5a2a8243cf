"""Worlds are read as the program reads them, and written so that it reads them again."""
from calls import EXAMPLES, LabCase, feast

from feast_lab.lab.base.errors import LabError
from feast_lab.lab.formats.world import Attempt, Placed, World

FULL = """feast 2
# a comment

tiles 2 1
size 8 9
off 1
try 0 1 4 00000000000000ff
try 0 7 8 ffffffffffffffff
atom 1 4 Walker
atom 6 2 Walker 0b8000000000000000
order 0 0
order 0
"""
# a line that is put in place of one, and what the refusal says
FAULTS = [
    (1, "feast 3", ":1: no line of a world"),
    (1, "tiles 2 1", ":1: a world has no such line here"),
    (4, "tiles 9 1", ":4: 9 is not from 1 to 8"),
    (4, "tiles 2  1", ":4: no line of a world"),
    (5, "size 8 7", ":5: 7 is not from 8 to 64"),
    (5, "size 08 9", ":5: no line of a world"),
    (6, "off 2", ":6: 2 is not from 0 to 1"),
    (7, "try 0 16 4 00000000000000ff", ":7: 16 is not from 0 to 15"),
    (7, "try 0 1 4 00000000000000FF", ":7: no line of a world"),
    (9, "atom 1 9 Walker", ":9: 9 is not from 0 to 8"),
    (9, "atom 1 4 walker", ":9: no line of a world"),
    (10, "atom 6 2 Walker 800000000000000000", ":10: 800000000000000000 is no state"),
    (10, "size 8 9", ":10: a world has no such line here"),
    (12, "order seed 1", ":12: an order is one seed"),
]


class Worlds(LabCase):
    """World files."""

    def test_all_lines(self) -> None:
        world = World.read(self.file("w", FULL.replace("\n", "\r\n")))
        self.assertEqual((world.version, world.tiles_x, world.tiles_y, world.width, world.height), (2, 2, 1, 8, 9))
        self.assertEqual((world.off, world.seed, world.order), ([1], None, [0, 0, 0]))
        self.assertEqual(world.tries, [Attempt(0, 1, 4, 255), Attempt(0, 7, 8, 2**64 - 1)])
        self.assertEqual(world.atoms, [Placed(1, 4, "Walker"), Placed(6, 2, "Walker", 0xb8 << 60)])
        self.assertEqual((world.sites, world.tile_at(7, 8), world.tile_at(8, 0)), (72, 0, 1))

    def test_written_as_the_program_prints(self) -> None:
        """Without comments, with each state, and the lists of an order in one line."""
        printed = FULL.replace("# a comment\n\n", "").replace("atom 1 4 Walker", f"atom 1 4 Walker {'0' * 18}")
        printed = printed.replace("order 0 0\norder 0\n", "order 0 0 0\n")
        self.assertEqual(World.read(self.file("w", FULL)).text(), printed)

    def test_written_worlds_are_the_same_to_the_program(self) -> None:
        for name, *elements in [("fence-tiles", "fence"), ("garden", "sower", "stone"), ("walk", "walker")]:
            path = EXAMPLES / f"{name}.world"
            files = [EXAMPLES / f"{element}.ulam" for element in elements]
            again = self.file("again", World.read(path).text())
            self.assertEqual(feast("step", again, *files), feast("step", path, *files), path)

    def test_all_examples(self) -> None:
        for path in sorted(EXAMPLES.rglob("*.world")):
            world = World.read(path)
            self.assertEqual(World.read(self.file("again", world.text())), world, path)

    def test_faults(self) -> None:
        lines = FULL.splitlines()
        for number, line, says in FAULTS:
            text = "\n".join([*lines[:number - 1], line, *lines[number:]])
            with self.assertRaises(LabError) as raised:
                World.read(self.file("w", text))
            self.assertIn(f"w{says}", str(raised.exception))

    def test_cut_short(self) -> None:
        for text, missing in [("", "feast"), ("feast 1\n", "tiles"), ("feast 1\ntiles 1 1\n", "size"),
                              ("feast 1\ntiles 1 1\nsize 8 8\nseed 1", "attempts")]:
            with self.assertRaises(LabError) as raised:
                World.read(self.file("w", text))
            self.assertIn("should follow", str(raised.exception))
            self.assertIn(f"`{missing} ..`", str(raised.exception))

    def test_too_many_attempts(self) -> None:
        front = "feast 1\ntiles 2 2\nsize 8 8\nseed 1\nattempts "
        self.assertEqual(World.read(self.file("w", front + "250000")).attempts, 250000)
        with self.assertRaises(LabError):
            World.read(self.file("w", front + "250001"))
