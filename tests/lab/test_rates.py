"""Rates: against counts of lines, and what is refused."""
import csv
import gzip
import io
import re
import xml.etree.ElementTree as xml
from pathlib import Path
from statistics import fmean

from calls import EXAMPLES, LabCase, Word, feast

SVG = "{http://www.w3.org/2000/svg}"
OFF = "feast 2\ntiles 3 2\nsize 8 9\noff 1\nseed 5\nattempts 900\natom 2 2 Regulator\n"


class RatesCase(LabCase):
    """Runs of regulators."""

    def setUp(self) -> None:
        super().setUp()
        text = (EXAMPLES / "regulator-tiles.world").read_text()
        self.world = self.file("small.world", text.replace("attempts 40000", "attempts 4000"))
        self.report = self.file("report", feast("step", self.world, EXAMPLES / "regulator.ulam"))

    def rows(self, world: Path, report: Path, *words: Word) -> list[dict[str, str]]:
        """The rows that the verb writes."""
        return list(csv.DictReader(io.StringIO(self.passes("rates", world, report, *words))))


class Rates(RatesCase):
    """The tables and the map."""

    def counted(self, world: Path, report: Path) -> None:
        """Compares each row with the number of lines that have its site."""
        journal, abandoned = report.read_text().split("\njournal ")[1].split("\nabandoned ")
        rows = self.rows(world, report)
        for row in rows:
            event = rf"(?m)^\d+ {row['tile']} \d+ {row['x']} {row['y']} [0-9a-f]+$"
            self.assertEqual(int(row["events"]), len(re.findall(event, journal)))
            given_up = rf"(?m)^{row['tile']} \d+ {row['x']} {row['y']} \d+ \d+ \d+$"
            self.assertEqual(int(row["abandoned"]), len(re.findall(given_up, abandoned)))
        self.assertEqual(sum(int(row["events"]) for row in rows), int(journal.split("\n")[0]))
        self.assertEqual(sum(int(row["abandoned"]) for row in rows), int(abandoned.split("\n")[0]))

    def test_sites(self) -> None:
        """Each site has as many events and abandoned attempts as lines of the report name it."""
        self.counted(self.world, self.report)
        self.assertEqual([(row["x"], row["y"]) for row in self.rows(self.world, self.report)],
                         [(str(x), str(y)) for y in range(16) for x in range(16)])

    def test_element_files(self) -> None:
        """The element files of the run may be named, and change nothing."""
        self.assertEqual(self.rows(self.world, self.report, EXAMPLES / "regulator.ulam"), self.rows(self.world, self.report))

    def test_off(self) -> None:
        """A tile that is off has no rows."""
        world = self.file("off.world", OFF)
        report = self.file("off.report", feast("step", world, EXAMPLES / "regulator.ulam"))
        self.counted(world, report)
        self.assertEqual(len(self.rows(world, report)), 5 * 72)
        self.assertEqual([row["tile"] for row in self.rows(world, report, "--by", "tile")], ["0", "2", "3", "4", "5"])

    def test_tiles(self) -> None:
        """The rows of the tiles follow from those of their sites; a packed report has the same."""
        sites = self.rows(self.world, self.report)
        for row in self.rows(self.world, self.report, "--by", "tile"):
            for what in ("events", "abandoned"):
                own = [int(site[what]) for site in sites if site["tile"] == row["tile"]]
                self.assertEqual([row[f"{what}_{name}"] for name in ("sum", "least", "mean", "greatest")],
                                 [str(sum(own)), str(min(own)), f"{fmean(own):.4f}", str(max(own))])
                self.assertEqual(row["sites"], "64")
        packed = self.room / "packed"
        packed.write_bytes(gzip.compress(self.report.read_bytes()))
        self.assertEqual(self.rows(self.world, packed), sites)

    def test_map(self) -> None:
        """The map tells the least, the mean and the greatest number of its two panels."""
        sites = self.rows(self.world, self.report)
        path = self.room / "map.svg"
        self.assertEqual(self.rows(self.world, self.report, "--svg", str(path)), sites)
        texts = {text.text for text in xml.fromstring(path.read_text()).iter(f"{SVG}text")}
        for what, name in (("events", "events"), ("abandoned", "abandoned attempts")):
            numbers = [int(site[what]) for site in sites]
            head = f"small.world: {name} of a site (mean {fmean(numbers):,.1f})"
            self.assertLessEqual({head, f"least {min(numbers)}", f"greatest {max(numbers)}"}, texts)

    def test_one_tile(self) -> None:
        """With one tile there are no abandoned attempts, and one panel."""
        world = EXAMPLES / "walk.world"
        report = self.file("walk.report", feast("run", world, EXAMPLES / "walker.ulam"))
        path = self.room / "map.svg"
        self.passes("rates", world, report, "--svg", str(path))
        texts = [text.text for text in xml.fromstring(path.read_text()).iter(f"{SVG}text")]
        self.assertEqual(texts, ["walk.world: events of a site (mean 0.1)", "least 0", "greatest 1"])


class Refusals(RatesCase):
    """What is refused in one line."""

    def test_others(self) -> None:
        """A report of another world."""
        self.refused(f"{self.report}: it has ", "rates", EXAMPLES / "regulator-tiles.world", self.report)
        text = self.world.read_text().replace("tiles 2 2", "tiles 4 1")
        narrow = self.file("narrow.world", "".join(line for line in text.splitlines(True) if not line.startswith("atom")))
        line = len(self.report.read_text().split("\njournal ")[0].splitlines()) + 2
        self.refused(f"{self.report}:", "rates", narrow, self.report)
        lines = self.report.read_text().splitlines(keepends=True)
        lines[line - 1] = re.sub(r"^(\d+ \d+ \d+) \d+", r"\1 16", lines[line - 1])
        self.refused(f"outside:{line}: tile ", "rates", self.world, self.file("outside", "".join(lines)))

    def test_files(self) -> None:
        """Files that are missing or have another form, and a map that can't be written."""
        missing = self.room / "missing"
        self.refused(f"{missing}: ", "rates", missing, self.report)
        self.refused(f"{missing}: ", "rates", self.world, missing)
        self.refused(f"{self.world}:2: no report", "rates", self.world, self.world)
        self.refused(f"{missing}/map.svg: can't be written", "rates", self.world, self.report, "--svg", missing / "map.svg")
