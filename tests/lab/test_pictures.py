"""The pictures of docs/pictures: the commands of its page make them again."""
import re
import subprocess

from calls import EXAMPLES, TOP, LabCase, around, program

PICTURES = TOP / "docs" / "pictures"


class Pictures(LabCase):
    """The commands, in a folder that looks like the top of a clone."""

    def test_commands(self) -> None:
        """Each picture comes out byte by byte."""
        (self.room / "lab").symlink_to(TOP / "lab")
        (self.room / "tools").symlink_to(TOP / "tools")
        (self.room / "feast").symlink_to(program())
        (self.room / "examples").symlink_to(EXAMPLES)
        made = self.room / "docs" / "pictures"
        made.mkdir(parents=True)
        lines = (PICTURES / "README.md").read_text().splitlines()
        for command in (line.strip() for line in lines if line.startswith(("    ./", "    python3 ", "    sed "))):
            done = subprocess.run(command, shell=True, cwd=self.room, env=around(), capture_output=True, text=True, check=False)
            self.assertEqual(done.returncode, 0, f"{command}: {done.stderr}")
        self.assertEqual({path.name: path.read_bytes() for path in made.iterdir()},
                         {path.name: path.read_bytes() for path in PICTURES.glob("*.svg")})

    def test_edges(self) -> None:
        """In the picture of edges, the sites that need none are those with eight columns and rows between them and a border."""
        free = re.search(r'<path d="([^"]*)" fill="#fff"/>', (PICTURES / "border.svg").read_text())
        assert free is not None
        runs = [[int(number) // 15 for number in run] for run in re.findall(r"M(\d+) (\d+)h(\d+)", free[1])]
        outer = [*range(8), *range(24, 32)]
        self.assertEqual({(x + step, y) for x, y, length in runs for step in range(length)},
                         {(x, y) for x in outer for y in outer})

    def test_window(self) -> None:
        """Each site of the window is drawn at the offset that docs/machine.md gives its number, and in no other place."""
        table = re.findall(r"(?m)^\| (\d+)(?: to \d+)? \| ((?:\([-\d,]+\) ?)+)\|$", (TOP / "docs/machine.md").read_text())
        offsets = {int(first) + at: pair for first, row in table for at, pair in enumerate(re.findall(r"\(([-\d]+),([-\d]+)\)", row))}
        shown = re.findall(r'<rect x="(\d+)" y="(\d+)" width="40" height="40" [^>]*/>\n<text [^>]*>(\d+)</text>',
                           (PICTURES / "window.svg").read_text())
        self.assertEqual({int(number): (str(int(x) // 40 - 4), str(int(y) // 40 - 4)) for x, y, number in shown}, offsets)
        self.assertEqual(sorted(offsets), list(range(41)))
