"""The moving SVG of the verb film."""
import re
import xml.etree.ElementTree as ElementTree
from pathlib import Path

from browser import Browser, chromium
from calls import EXAMPLES, LabCase, feast

SVG = "{http://www.w3.org/2000/svg}"
WORLD, ELEMENT = EXAMPLES / "fence-tiles.world", EXAMPLES / "fence.ulam"
SECONDS = 4.0


class Movie(LabCase):
    """Eight steps of a fence."""

    def setUp(self) -> None:
        super().setUp()
        self.report = self.file("report", feast("step", WORLD, ELEMENT))
        self.events = int(re.findall(r"(?m)^journal (\d+)$", self.report.read_text())[0])

    def made(self) -> Path:
        """The film as a file."""
        path = self.room / "fence.svg"
        self.passes("film", WORLD, self.report, "--frames", "8", "--svg-movie", f"{SECONDS:g}", "-o", path, ELEMENT)
        return path

    def test_pictures(self) -> None:
        """Each picture has the atoms of its moment, by what `rewind` writes."""
        groups = ElementTree.parse(self.made()).getroot().findall(f".//{SVG}g[@class]")
        self.assertEqual(len(groups), 9)
        for number, group in enumerate(groups):
            events = self.events * number // 8
            lines = feast("rewind", WORLD, self.report, str(events), ELEMENT).splitlines()[2:]
            sites = {(int(x) * 24, int(y) * 24, f"#{name}") for x, y, name, _ in map(str.split, lines)}
            uses = group.findall(f"{SVG}use")
            self.assertEqual({(int(use.attrib["x"]), int(use.attrib["y"]), use.attrib["href"]) for use in uses}, sites)
            text = group.find(f"{SVG}text")
            assert text is not None and text.text is not None
            self.assertEqual(text.text.split(", ")[0], f"{events:,} events")

    def test_refused(self) -> None:
        for seconds in ("0", "-1", "3601", "nan"):
            self.refused(f"--svg-movie {seconds}: a film takes from 0.1 to 3600 seconds", "film", WORLD, self.report,
                         "--svg-movie", seconds, "-o", self.room / "x.svg", ELEMENT)
        self.refused("not allowed with argument", "film", WORLD, self.report, "--svg-movie", "4", "--csv", ELEMENT)

    def test_played(self) -> None:
        """A browser shows one picture at each time: each for its step, and the last one for ten; then it begins anew."""
        path = chromium()
        if path is None:
            self.skipTest("no browser is there: apt-get install chromium")
        step = SECONDS * 1000 / 18
        browser = Browser(path, self.room / "browser")
        self.addCleanup(browser.close)
        browser.open(self.made().as_uri(), "document.getAnimations().length == 9")
        for time, shown in ((0.5, 0), (1.5, 1), (7.5, 7), (8.5, 8), (17.5, 8), (18.5, 0)):
            self.assertEqual(browser.value(SHOWN % (time * step)), [shown], time)


# The numbers of the pictures that are shown after so many milliseconds.
SHOWN = """(document.getAnimations().forEach(it => { it.pause(); it.currentTime = %f }),
[...document.querySelectorAll("g[class]")].map((it, at) => getComputedStyle(it).visibility == "visible" ? at : -1)
.filter(at => at >= 0))"""
