"""Films with members: measures in their table and on their page, and atoms coloured by the value of a member."""
import csv
import io
import re
import unittest
import xml.etree.ElementTree as xml

import films
import test_film_page
from browser import chromium
from calls import EXAMPLES, LabCase, Word, feast

SVG = "{http://www.w3.org/2000/svg}"
FENCE = ["--count", "Fence.place>5", "--mean", "Fence.place", "--max", "Fence.place", "--min", "Fence.place", "--sum", "Fence.place"]
NAMES = ["count(Fence.place>5)", "mean(Fence.place)", "max(Fence.place)", "min(Fence.place)", "sum(Fence.place)"]
FIELD = """/** \\symbol Fi \\color-by dist */
element Field { Int(6) dist; Unsigned(2) step; Void behave() { } }
/** \\symbol St \\color #123456 */
element Stone { Void behave() { } }
"""
DISTS = (-11, 20, -10, 14)
STATES = [f"{int(('0' + f'{dist % 64:06b}' + '01').ljust(72, '0'), 2):018x}" for dist in DISTS]
WORLD = "feast 1\ntiles 1 1\nsize 8 8\n" + "".join(
    f"atom {x} 0 Field {state}\n" for x, state in enumerate(STATES)) + "atom 0 1 Stone\n"
# the values lie 0, 31, 1 and 25 steps above the least; viridis at 0, at 1, and between its stops by hand
COLORS = ["#440154", "#fde725", "#440c5c", "#7ed250"]


class Measured(LabCase):
    """Measures of films."""

    def setUp(self) -> None:
        super().setUp()
        self.world = self.file("w", (EXAMPLES / "fence-tiles.world").read_text().replace("attempts 20000", "attempts 9000"))
        self.elements = EXAMPLES / "fence.ulam"
        self.report = self.file("report", feast("step", self.world, self.elements))

    def expected(self, events: str) -> list[str]:
        """What the measures come to after so many events, from the digits that `rewind` writes."""
        lines = feast("rewind", self.world, self.report, events, self.elements).splitlines()[2:]
        places = [int(line.split()[3][:2], 16) for line in lines if " Fence " in line]
        ends = [str(max(places)), str(min(places))] if places else ["", ""]
        mean = f"{sum(places) / len(places):.4f}" if places else ""
        return [str(sum(place > 5 for place in places)), mean, *ends, str(sum(places))]

    def test_table(self) -> None:
        """Each row of the table has the measures of its moment."""
        told = self.passes("film", self.world, self.report, "--csv", "--frames", "12", *FENCE, self.elements)
        rows = list(csv.DictReader(io.StringIO(told)))
        self.assertEqual(list(rows[0])[-5:], NAMES)
        for row in rows:
            self.assertEqual([row[name] for name in NAMES], self.expected(row["events"]))
        self.assertGreater(len({row[NAMES[1]] for row in rows}), 4)

    def test_page(self) -> None:
        """The page has the numbers of each frame."""
        page = self.room / "film.html"
        self.passes("film", self.world, self.report, "-o", page, "--frames", "12", *FENCE, self.elements)
        head = films.head(page.read_text())
        self.assertEqual([measure["name"] for measure in head["measures"]], NAMES)
        for frame, events in enumerate(head["events"]):
            self.assertEqual([measure["values"][frame] for measure in head["measures"]], self.expected(str(events)))

    def test_chain(self) -> None:
        """The film of a chain has the measures of its course, unless others are named."""
        chain = self.room / "chain"
        self.passes("chain", chain, "--legs", "3", "--step", "--mean", "Fence.place", self.world, self.elements)
        course = list(csv.DictReader(io.StringIO((chain / "course.csv").read_text())))
        rows = list(csv.DictReader(io.StringIO(self.passes("film", chain, "--csv"))))
        self.assertEqual([row[NAMES[1]] for row in rows], [row[NAMES[1]] for row in course])
        rows = list(csv.DictReader(io.StringIO(self.passes("film", chain, "--csv", *FENCE[-2:]))))
        self.assertEqual(list(rows[0])[-1], NAMES[-1])
        self.assertNotIn(NAMES[1], rows[0])

    def test_refused(self) -> None:
        words: list[Word] = ["film", self.world, self.report, "-o", self.room / "film.html"]
        for options, says in [
            (["--color", "Fence.age"], "--color Fence.age: Fence has no member age; it has place"),
            (["--color", "Post.place"], "--color Post.place: no file has an element Post"),
            (["--color", "place"], "--color place: it has to be Element.member"),
            (["--mean", "Mouse.place"], "--mean Mouse.place: Mouse has no member place; it has none"),
            (["--count", "Fence.place"], "--count Fence.place: it has to be Element.member=VALUE"),
        ]:
            self.refused(says, *words, *options, self.elements)
        for said, says in [("age", "\\color-by age: Fence has no member age"), ("", "\\color-by takes the name of a member, not ''"),
                           ("#fff", "\\color-by takes the name of a member, not '#fff'")]:
            file = self.file("fence.ulam", self.elements.read_text().replace("\\symbol Fe", f"\\color-by {said}\n"))
            self.refused(says, *words, file)


class Tints(LabCase):
    """Atoms coloured by a member."""

    def setUp(self) -> None:
        super().setUp()
        self.world, self.elements = self.file("w", WORLD), self.file("field.ulam", FIELD)
        self.report = self.file("report", feast("step", self.world, self.elements))

    def fills(self, *options: str) -> list[str]:
        """The colours of the sites of a figure, and what its texts say."""
        picture = xml.fromstring(self.passes("film", self.world, self.report, "--svg", "0", *options, self.elements))
        colors: dict[tuple[int, int], str] = {}
        for path in picture.iter(f"{SVG}path"):
            for x, y, wide in re.findall(r"M(\d+) (\d+)h(\d+)v24h-\d+z", path.get("d", "")):
                colors |= {(at, int(y) // 24): path.get("fill", "") for at in range(int(x) // 24, (int(x) + int(wide)) // 24)}
        sites = [colors[site] for site in [(0, 0), (1, 0), (2, 0), (3, 0), (0, 1)]]
        return [*sites, *(str(text.text) for text in picture.iter(f"{SVG}text"))]

    def test_figure(self) -> None:
        """The source names the member; an option names another, or one of another element."""
        found = self.fills()
        self.assertEqual(found[:5], [*COLORS, "#123456"])
        self.assertIn("Field.dist -11", found)
        self.assertIn("20", found)
        found = self.fills("--color", "Field.step")
        self.assertEqual(found[:5], [COLORS[0]] * 4 + ["#123456"])
        self.assertIn("Field.step 1", found)

    def test_head(self) -> None:
        """The page has the least and the greatest value, and the colours between."""
        page = self.room / "film.html"
        self.passes("film", self.world, self.report, "-o", page, self.elements)
        scale, = films.head(page.read_text())["colorBy"]
        self.assertEqual((scale["element"], scale["member"], scale["least"], scale["greatest"]), ("Field", "dist", "-11", "20"))
        self.assertEqual([scale["colors"][at] for at in (0, 31, 1, 25)], COLORS)


@unittest.skipIf(chromium() is None, "no Chromium")
class Pages(test_film_page.FilmPage):
    """What a browser shows of them."""

    def test_colors(self) -> None:
        """Each atom has the colour of its value, and the legend its ends."""
        world, elements = self.file("field.world", WORLD), self.file("field.ulam", FIELD)
        self.shown(world, elements)
        self.assertEqual(self.colors(8, 8)[0], [*COLORS, *["#ffffff"] * 4])
        self.assertEqual(self.colors(8, 8)[1][0], "#123456")
        self.assertEqual(self.text("scales"), "Field.dist: -11  20")
        self.picture("members-colors")

    def test_choice(self) -> None:
        """The colours that the source names are one choice of several; beside a member that is chosen the others are grey."""
        self.shown(self.file("field.world", WORLD), self.file("field.ulam", FIELD))
        options = self.browser.value("[...document.getElementById('color-by').options].map((it) => it.text)")
        self.assertEqual(options, ["element", "element and Field.dist", "Field.dist", "Field.step"])
        elements = films.head((self.room / "film.html").read_text())["elements"]
        for choice, field, stone, legend in [("", elements[0]["color"], "#123456", ""), ("Field.dist", COLORS[0], "#c9cdd1", "Field.dist: -11  20"),
                                             ("given", COLORS[0], "#123456", "Field.dist: -11  20")]:
            self.browser.value(f"document.getElementById('color-by').value = '{choice}'")
            self.browser.value("document.getElementById('color-by').dispatchEvent(new Event('change'))")
            colors = self.colors(8, 8)
            self.assertEqual((colors[0][0], colors[1][0], self.text("scales")), (field, stone, legend), choice)

    def test_curves(self) -> None:
        """The numbers of the measures are those of the frame, and each has a curve."""
        world = self.file("fence.world", (EXAMPLES / "fence-tiles.world").read_text().replace("attempts 20000", "attempts 2000"))
        report, page = self.room / "report", self.room / "film.html"
        report.write_text(feast("step", world, EXAMPLES / "fence.ulam"))
        self.passes("film", world, report, "-o", page, "--frames", "6", *FENCE, EXAMPLES / "fence.ulam")
        values = {measure["name"]: measure["values"] for measure in films.head(page.read_text())["measures"]}
        self.open(page)
        for frame in (0, 1, 2):
            texts = [f"{name}: {values[name][frame] or 'no atom'}" for name in NAMES]
            self.assertEqual(self.browser.value("[...document.querySelectorAll('.measure')].map((it) => it.textContent)"), texts)
            self.browser.press("ArrowRight")
        self.assertEqual(self.browser.value("[...document.querySelectorAll('#measures canvas')].map((it) => it.width > 200)"), [True] * 5)
        blue = """[...document.querySelectorAll('#measures canvas')].map((it) => {
            const { data } = it.getContext('2d').getImageData(0, 0, it.width, it.height);
            let found = 0;
            for (let i = 0; i < data.length; i += 4) found += data[i] === 11 && data[i + 1] === 87 && data[i + 2] === 208;
            return found > 50; })"""
        self.assertEqual(self.browser.value(blue), [True] * 5)
        self.picture("members-curves")
