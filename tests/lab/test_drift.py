"""How far the tiles of a run were apart: against figures made by hand, and against what each moment says."""
import csv
import io
from collections import Counter
from collections.abc import Sequence
from contextlib import redirect_stderr
from fractions import Fraction
from pathlib import Path
from unittest import TestCase

import films
from calls import EXAMPLES, LabCase, feast, here
from kept_chain import repack, told

from feast_lab.lab.command.main import main
from feast_lab.lab.formats.world import World
from feast_lab.lab.measure.drift import drifts, greatest, of_legs, plans

# the plans of the tiles, the tile of each event, and how far each tile was ahead of the slowest
CASES: list[tuple[list[int], str, list[str]]] = [
    ([2], "00", ["0"]),
    ([0], "", ["0"]),
    ([3, 3], "", ["0", "0"]),
    ([2, 2], "0011", ["1", "0"]),
    ([2, 2], "0101", ["1/2", "0"]),
    ([4, 4], "01100011", ["1/2", "1/4"]),
    ([4, 4, 4], "012012012012", ["1/4", "1/4", "0"]),
    ([9, 9], "00111", ["1", "0"]),  # of its own events, whatever was abandoned
    ([9, 9, 9], "0011", ["1", "0", "0"]),  # a tile without events
    ([0, 2, 2], "1122", ["0", "1", "0"]),  # a tile that is off
    ([2, 4], "010111", ["1/4", "0"]),  # unequal plans: side by side until the shorter ends
    ([2, 4], "111100", ["0", "1"]),
    ([2, 4], "001111", ["1/2", "0"]),
    ([1, 4, 4], "012121212", ["1/4", "1/4", "0"]),
]


def at_each_moment(planned: Sequence[int], tiles: Sequence[int]) -> list[Fraction]:
    """How far each tile was ahead, from the ages of all tiles at every moment."""
    total, made = Counter(tiles), Counter[int]()
    ahead = [Fraction(0)] * len(planned)
    for tile in tiles:
        made[tile] += 1
        ages = {it: Fraction(made[it] * planned[it], total[it] * max(planned)) for it in total}
        least = min((ages[it] for it in total if made[it] < total[it]), default=Fraction(1))
        ahead = [max(most, ages.get(it, least) - least) for it, most in enumerate(ahead)]
    return ahead


def in_short(report: str) -> bytes:
    """The short report of a leg, from the whole one."""
    lines = ["feast 2"]
    for line in report.splitlines()[1:]:
        fields = line.split(" ")
        lines.append(" ".join(fields[:3]) if len(fields) == 6 else " ".join(fields[:2] + fields[4:]) if len(fields) == 7 else line)
    return "".join(f"{line}\n" for line in lines).encode()


class Drifts(TestCase):
    """Drift by itself."""

    def test_cases(self) -> None:
        for planned, text, wanted in CASES:
            with self.subTest(plans=planned, tiles=text):
                tiles = [int(tile) for tile in text]
                expected = [Fraction(it) for it in wanted]
                self.assertEqual(at_each_moment(planned, tiles), expected)
                for found, ahead in zip(drifts(planned, tiles), expected, strict=True):
                    self.assertAlmostEqual(found, float(ahead), places=12)
                self.assertAlmostEqual(greatest(planned, tiles), float(max(expected)), places=12)


class Runs(LabCase):
    """Drift of runs, in the tables and in the film."""

    def ahead(self, world: Path, reports: Sequence[str]) -> list[Fraction]:
        """How far each tile was ahead in reports of equally many attempts that follow one another, from the ages at
        every moment of each."""
        journals = [report.split("\njournal ")[1].split("\nabandoned ")[0].splitlines()[1:] for report in reports]
        found = [at_each_moment(plans(World.read(world)), [int(line.split()[1]) for line in lines]) for lines in journals]
        return [max(column) / len(reports) for column in zip(*found, strict=True)]

    def said(self, *words: str | Path) -> str:
        """What a call of the lab writes to standard error, but for its progress."""
        errors = io.StringIO()
        with redirect_stderr(errors):
            self.assertEqual(main([str(word) for word in words]), 0)
        return "".join(line for line in errors.getvalue().splitlines(True) if "% done" not in line)

    def test_legs(self) -> None:
        """Each leg is judged by its own plan and events, and weighs as much as it has attempts."""
        short, long = ([2, 2], [0, 0, 1, 1]), ([6, 6], [0, 1, 1])  # tile 0 a whole leg ahead, and then all of it at once
        self.assertEqual(of_legs([short]), [1.0, 0.0])
        self.assertEqual(of_legs([short, long]), [0.75, 0.0])
        self.assertEqual(of_legs([short, short, short, ([2, 2], [1, 0])]), [0.25, 0.25])
        chain = self.room / "chain"
        world = self.file("w.world", "feast 1\ntiles 2 1\nsize 16 8\nseed 1\nattempts 20\natom 1 1 Stone\n")
        self.passes("chain", chain, "--legs", "2", "--step", "--keep", "reports", "--at", "2:attempts:60", world, EXAMPLES / "stone.ulam")
        found = []
        for leg, weight in ((1, Fraction(1, 4)), (2, Fraction(3, 4))):
            path = self.file("leg", told(chain, leg, "world"))
            found.append([ahead * weight for ahead in self.ahead(path, [told(chain, leg, "whole")])])
        rows = csv.DictReader(io.StringIO(self.passes("rates", chain, "--by", "tile")))
        self.assertEqual([row["drift"] for row in rows], [f"{float(max(column)):.4f}" for column in zip(*found, strict=True)])

    def test_rates(self) -> None:
        """Stepped and threaded runs, tiles that are off, and tries that are written out."""
        file = EXAMPLES / "fence.ulam"
        tiles = (EXAMPLES / "fence-tiles.world").read_text().replace("attempts 20000", "attempts 400")
        off = "feast 2\ntiles 3 1\nsize 8 8\noff 1\nseed 5\nattempts 50\n"
        tries = "".join(f"try {tile} {8 * tile + 3} 3 {seed:016x}\n" for tile, count in ((0, 30), (1, 60)) for seed in range(count))
        written = f"feast 1\ntiles 2 1\nsize 8 8\n{tries}"
        for form, text, planned in (("step", tiles, [400] * 4), ("run", tiles, [400] * 4), ("step", off, [50, 0, 50]),
                                    ("run", written, [30, 60])):
            with self.subTest(form, text=text[:40]):
                world = self.file("w", text)
                report = self.file("report", feast(form, world, file))
                self.assertEqual(plans(World.read(world)), planned)
                wanted = [f"{float(it):.4f}" for it, plan in zip(self.ahead(world, [report.read_text()]), planned, strict=True) if plan]
                rows = csv.DictReader(io.StringIO(self.passes("rates", world, report, "--by", "tile")))
                self.assertEqual([row["drift"] for row in rows], wanted)

    def test_film(self) -> None:
        """A film says it, and so do a plane in the midst of the run and the counts; but not of tiles that keep pace."""
        file, page = EXAMPLES / "stone.ulam", self.room / "film.html"
        # at the border each event of tile 1 waits for those of tile 0; far from it no tile waits for the other
        for columns, percent in (((12, 18), 100), ((3, 28), 0)):
            tries = [f"try {tile} {columns[tile]} 3 {seed:016x}\n" for tile in (0, 1) for seed in range(20)]
            world = self.file("w.world", f"feast 1\ntiles 2 1\nsize 16 8\n{''.join(tries)}")
            report = self.file("report", feast("step", world, file))
            self.assertEqual(float(max(self.ahead(world, [report.read_text()]))), percent / 100 or 1 / 20)
            says = "the tiles did not keep pace: at one moment a tile was 100 % of its events ahead of another, " \
                   "so a moment of this run mixes ages" if percent else ""
            line = f"lab: warning: w.world: {says}\n" if percent else ""
            self.assertEqual(self.said("film", world, report, "--frames", "3", "-o", page, file), line)
            self.assertEqual(films.head(page.read_text())["mixed"], f"T{says[1:]}." if percent else "")
            self.assertEqual(self.said("film", world, report, "--frames", "3", "--csv", "-o", page, file), line)
            self.assertEqual(self.said("film", world, report, "--svg", "10", "-o", page, file), line)
            for moment in ("0", "40"):  # moments that are one age of the plane
                self.assertEqual(self.said("film", world, report, "--svg", moment, "-o", page, file), "")

    def test_course(self) -> None:
        """The course of a chain has the drift of each leg if that is asked for, also of legs that are done; the audit tries it."""
        file = EXAMPLES / "stone.ulam"
        world = self.file("w.world", "feast 1\ntiles 2 1\nsize 16 8\nseed 1\nattempts 60\natom 1 1 Stone\n")
        chain, later, bare = (self.room / name for name in ("chain", "later", "bare"))
        words = ["--step", "--at", "2:attempts:30", "--keep", "reports"]
        self.passes("chain", chain, "--legs", "3", *words, "--drift", world, file)
        rows = list(csv.DictReader(io.StringIO((chain / "course.csv").read_text())))
        self.assertEqual(list(rows[0]), ["leg", "attempts", "events", "abandoned", "aeps", "drift", "Stone"])
        reports = [told(chain, leg, "whole") for leg in (1, 2, 3)]
        ahead = [float(max(self.ahead(self.file("leg", told(chain, leg, "world")), [report]))) for leg, report in enumerate(reports, 1)]
        self.assertEqual([row["drift"] for row in rows], ["0.0000", *(f"{it:.4f}" for it in ahead)])
        self.assertEqual(len(set(ahead)), 3)
        self.passes("chain", later, "--legs", "2", *words, world, file)
        self.passes("chain", later, "--legs", "2", *words, "--drift", world, file)
        self.passes("chain", later, "--legs", "3", *words, world, file)
        self.assertEqual((later / "course.csv").read_bytes(), (chain / "course.csv").read_bytes())
        self.passes("chain", later, "--legs", "3", *words, "--failures", world, file)
        self.assertEqual((later / "course.csv").read_text().splitlines()[0], "leg,attempts,events,abandoned,failed,aeps,drift,Stone")
        for it in (chain, later):
            self.assertEqual(self.passes("chain", "--audit", it), "yes\n")
        self.passes("chain", "--from", later, "2", self.room / "branch", "--legs", "3", "--drift")
        branch = csv.DictReader(io.StringIO((self.room / "branch" / "course.csv").read_text()))
        self.assertEqual([row["drift"] for row in branch], [row["drift"] for row in rows])
        path = chain / "course.csv"
        path.write_text(path.read_text().replace(rows[2]["drift"], "0.5001"))
        done = here("chain", "--audit", chain)
        self.assertEqual((done.status, done.wrote), (1, "no leg 2: its row in the course is another\n"))
        for legs in ("1", "2"):  # without reports it has to be asked for from the first leg on
            self.passes("chain", self.room / "short", "--legs", legs, "--drift", world, file)
        self.passes("chain", bare, "--legs", "2", world, file)
        self.refused("--drift takes the reports of the legs that are done, and the chain keeps none",
                     "chain", bare, "--legs", "3", "--drift", world, file)

    def test_chain(self) -> None:
        """In a chain the tiles wait for each other at the end of each leg, so with more legs they are less apart."""
        world = self.file("w.world", "feast 1\ntiles 2 1\nsize 64 8\nseed 1\nattempts 200\natom 1 1 Stone\n")
        page, file = self.room / "film.html", EXAMPLES / "stone.ulam"
        for legs, apart in ((2, True), (11, False)):
            chain = self.room / str(legs)
            self.passes("chain", chain, "--legs", str(legs), "--keep", "reports", world, file)
            # all attempts of tile 0 are made before those of tile 1
            worlds = [told(chain, leg, "world").partition("order")[0] for leg in range(1, legs + 1)]
            reports = [feast("step", self.file("leg", world), file) for world in worlds]
            repack(chain, {leg: in_short(report) for leg, report in enumerate(reports, 1)})
            course = (chain / "course.csv").read_text().splitlines()
            for leg, report in enumerate(reports, 1):
                events = report.split("\njournal ")[1].split()[0]
                course[leg + 1] = f"{leg},400,{events},{400 - int(events)},{0:.4f},1"
            total = 0
            for leg in range(1, legs + 1):
                total += int(course[leg + 1].split(",")[2])
                course[leg + 1] = course[leg + 1].replace("0.0000", f"{total / 1024:.4f}")
            (chain / "course.csv").write_text("\n".join(course) + "\n")
            most = float(max(self.ahead(world, reports)))
            self.assertEqual(most > 0.1, apart)
            self.assertEqual(f" {100 * most:.0f} % of its events" in self.said("film", chain, "--frames", "5", "-o", page), apart)
        bare = self.room / "bare"
        self.passes("chain", bare, "--legs", "2", world, file)
        self.assertEqual(self.said("film", bare, "-o", page), "")
