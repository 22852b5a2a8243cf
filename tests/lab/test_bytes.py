"""Element files whose comments have bytes that are no text: what the program takes, the lab takes too."""
import io
from contextlib import redirect_stderr

from calls import LabCase, Word, feast, here
from feast_lab.lab.pictures.marks import marks

WORLD = "feast 1\ntiles 1 1\nsize 8 8\nseed 3\nattempts 60\natom 1 1 Mouse\natom 4 5 Fence\n"
# The colour and the letters of Fence are text, and those of Mouse aren't; each other comment has some of the bytes from 1 to 255.
ALL = bytes(byte for byte in range(1, 256) if byte not in b"*/\n")
ELEMENTS = (b"// " + ALL + b"\n/* caf\xe9 " + ALL + b" */\n/** \xff \\color #123456 \\symbol \xc3\x89 */\n"
            b"element Fence { Void behave() { } }\n/** \\color #654321 \\symbol \xe9 */\n"
            b"element Mouse { EventWindow ew; Unsigned(9) age; Void behave() { /* \xfc */ age += 1; fail(); }"
            b" Void fail() { age = age / (age - age); } }\n")


class Bytes(LabCase):
    """Each verb that reads element files."""

    def setUp(self) -> None:
        super().setUp()
        self.world, self.elements = self.file("w.world", WORLD), self.room / "e.ulam"
        self.elements.write_bytes(ELEMENTS)
        self.report = self.file("report", feast("run", self.world, self.elements))

    def test_marks(self) -> None:
        """What is text is taken as it is; letters that aren't are the lab's own."""
        told = io.StringIO()
        with redirect_stderr(told):
            fence, mouse = marks(["Fence", "Mouse"], [self.elements])
        self.assertEqual((fence.color, fence.symbol), ("#123456", "\u00c9"))
        self.assertEqual((mouse.color, mouse.symbol), ("#654321", "M"))
        self.assertIn("e.ulam:5: \\\\symbol takes one to three letters, not '\\udce9'", told.getvalue())

    def test_verbs(self) -> None:
        """They are filmed, traced, searched for failures and run in chains like others, with the same lines and numbers."""
        plain = self.room / "plain" / "e.ulam"
        plain.parent.mkdir()
        plain.write_bytes(ELEMENTS.replace(b"\\symbol \xe9", b"\\symbol M").decode(errors="replace").encode())
        first = next(number for number, line in enumerate(self.passes("events", self.report).splitlines()) if ",1,1," in line)
        calls: list[list[Word]] = [["film", self.world, self.report, "--frames", "3", "--csv"], ["failures", self.world, self.report],
                                   ["trace", self.world, self.report, str(first)], ["atoms", self.report]]
        for words in calls:
            with self.subTest(words[0]):
                found, wanted = here(*words, self.elements), here(*words, plain)
                self.assertEqual((found.status, found.wrote.replace(str(self.elements), "")),
                                 (0, wanted.wrote.replace(str(plain), "")), found.said)
        self.assertIn(f"{self.elements}:6", here("failures", self.world, self.report, self.elements).wrote)
        film = self.room / "film.html"
        self.assertEqual(here("film", self.world, self.report, "--frames", "3", "-o", film, self.elements).status, 0)
        self.assertIn('"color":"#123456","symbol":"\\u00c9"', film.read_text())
        for option, value in (("--svg", "3"), ("--svg-movie", "2")):
            self.assertIn("<svg", here("film", self.world, self.report, option, value, self.elements).wrote)
        self.passes("chain", self.room / "chain", "--legs", "1", "--failures", self.world, self.elements)
