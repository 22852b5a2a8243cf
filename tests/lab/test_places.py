"""examples/places.ulam: columns and rows are those of the window's table, and the symmetries map it onto itself."""
import csv
import re

from calls import EXAMPLES, TOP, LabCase, feast

# An event that maps the farthest site with the longest symmetry, so many times.
ROUNDS = """element Rounds : Places {
  Void behave() { for (Unsigned i = 0; i < %d; i++) { Unsigned other = seen(37, 7); } }
}
"""
# Each atom asks of one site and one symmetry, and keeps what it is told.
ASKER = """element Asker : Places {
  Unsigned(6) asked; Unsigned(3) symmetry; Int(4) x; Int(4) y; Unsigned(6) back; Unsigned(6) seen_at; Unsigned(6) beyond;
  Void behave() {
    Unsigned i = asked;
    x = east(i); y = south(i); back = site(east(i), south(i)); seen_at = seen(i, symmetry); beyond = site(3, -2);
  }
}
"""
SITES, SYMMETRIES, WIDTH = 41, 8, 64


def offsets() -> dict[int, tuple[int, int]]:
    """The offset of each site from the centre, by the table of docs/machine.md."""
    table = re.findall(r"(?m)^\| (\d+)(?: to \d+)? \| ((?:\([-\d,]+\) ?)+)\|$", (TOP / "docs/machine.md").read_text())
    pairs = [(int(first) + at, pair) for first, row in table for at, pair in enumerate(re.findall(r"\((-?\d+),(-?\d+)\)", row))]
    return {number: (int(x), int(y)) for number, (x, y) in pairs}


class Places(LabCase):
    """Every site with every symmetry, each asked by an atom in an event of its own."""

    def answers(self) -> list[dict[str, int]]:
        """What each atom asked and was told."""
        asked = [(site, symmetry) for site in range(SITES) for symmetry in range(SYMMETRIES)]
        at = [f"{number % WIDTH} {number // WIDTH}" for number in range(len(asked))]
        tries = [f"try 0 {place} 0000000000000000" for place in at]
        atoms = [f"atom {place} Asker {site << 65 | symmetry << 62:018x}" for place, (site, symmetry) in zip(at, asked)]
        world = self.file("w", "\n".join(["feast 1", "tiles 1 1", f"size {WIDTH} {WIDTH}", *tries, *atoms, ""]))
        elements = [self.file("asker.ulam", ASKER), EXAMPLES / "places.ulam"]
        report = self.file("report", feast("run", world, *elements))
        rows = csv.DictReader(self.passes("atoms", report, *elements).splitlines())
        return [{name: int(value) for name, value in row.items() if name != "element"} for row in rows]

    def test_every_site(self) -> None:
        """Columns, rows, the way back, and the images under all symmetries."""
        table = offsets()
        numbers = {pair: number for number, pair in table.items()}
        found = self.answers()
        self.assertEqual(len(found), SITES * SYMMETRIES)
        for row in found:
            x, y = table[row["asked"]]
            image = complex(-x if row["symmetry"] >= 4 else x, y) * 1j ** (row["symmetry"] % 4)
            wanted = {**row, "x": x, "y": y, "back": row["asked"], "beyond": SITES,
                      "seen_at": numbers[round(image.real), round(image.imag)]}
            self.assertEqual(row, wanted)

    def test_turns(self) -> None:
        """`seen` takes 14 turns at most, as docs/ulam.md says: with that of the loop, 66 rounds are 990 and 67 too many."""
        world = self.file("w", "feast 1\ntiles 1 1\nsize 8 8\ntry 0 1 1 0000000000000000\natom 1 1 Rounds\n")
        left = {}
        for rounds in (66, 67):
            elements = self.file(f"rounds{rounds}.ulam", ROUNDS % rounds)
            left[rounds] = feast("run", world, elements, EXAMPLES / "places.ulam").splitlines()[1]
        self.assertEqual(left, {66: "atoms 1", 67: "atoms 0"})
