"""Colours and symbols of elements."""
from calls import EXAMPLES, LabCase
from feast_lab.lab.pictures.marks import PALETTE, Mark, brightness, ink, marks

GIVEN = """
/** Not this one. \\color #111111 \\symbol No */
quark Part { }
// nor this
/** A post.
    \\color #A0f
    \\symbol Po */
element Fence : Part { Void behave() { } }
/* \\color #ffffff is no doc comment */
element Mouse { /** \\symbol In */ Void behave() { } }
/** \\symbol Pi*/ /* between */ element // and here
  Pig { Void behave() { } }
element Post { Void behave() { } }
"""


class Marks(LabCase):
    """What the sources give, and what the lab adds."""

    def test_given(self) -> None:
        """A doc comment is that of the element below it; what it doesn't give is added."""
        file = self.file("given.ulam", GIVEN)
        self.assertEqual(marks(["Fence", "Mouse", "Pig", "Post"], [file]), [
            Mark("Fence", "#aa00ff", "Po"), Mark("Mouse", PALETTE[0], "M"), Mark("Pig", PALETTE[1], "Pi"),
            Mark("Post", PALETTE[2], "P")])

    def test_palette(self) -> None:
        """Colours that are given are not used again; nor are symbols, of however many elements."""
        file = self.file("one.ulam", f"/** \\color {PALETTE[1].upper()} \\symbol S1 */\nelement S {{ Void behave() {{ }} }}\n")
        names = ["S", *(f"S{number}" for number in range(255))]
        found = marks(names, [file])
        self.assertEqual([mark.color for mark in found[:4]], [PALETTE[1], PALETTE[0], PALETTE[2], PALETTE[3]])
        self.assertEqual(len({mark.symbol for mark in found}), 256)

    def test_examples(self) -> None:
        """The elements of each example have marks of their own."""
        for name in ("regulator", "sorter", "seasons"):
            file = EXAMPLES / f"{name}.ulam"
            elements = [line.split()[1] for line in file.read_text().splitlines() if line.startswith("element")]
            found = marks(elements, [file])
            self.assertEqual(len({(mark.color, mark.symbol) for mark in found}), len(elements))

    def test_ink(self) -> None:
        """Letters can be read on each colour: the contrast is at least 4.5 to 1."""
        for color in [*PALETTE, "#ffffff", "#808080", "#ff0000"]:
            bright, written = brightness(color), 0.0 if ink(color) == "#000" else 1.0
            self.assertGreater((max(bright, written) + 0.05) / (min(bright, written) + 0.05), 4.5)
