"""Films that show where events failed, against what `failures` lists."""
import csv
import io
import tempfile
import unittest
from collections import Counter
from pathlib import Path

import films
from browser import Browser, chromium
from calls import LabCase, Word, feast, lab, program

READY = "document.readyState === 'complete' && !document.getElementById('film').hidden"
# the colour in the middle of each site
COLORS = """(() => {
  const canvas = document.getElementById('plane');
  const side = (canvas.width - 2) / 16;
  const pen = canvas.getContext('2d', { willReadFrequently: true });
  const hex = (x, y) => '#' + [...pen.getImageData(1 + (x + 0.5) * side, 1 + (y + 0.5) * side, 1, 1).data.slice(0, 3)]
    .map((part) => part.toString(16).padStart(2, '0')).join('');
  return Array.from({ length: 16 }, (_, y) => Array.from({ length: 16 }, (_, x) => hex(x, y)));
})()"""
# Each fails in a quarter of its events.
FRAIL = "element Frail { EventWindow ew; Random random; Void behave() { ew.isEmpty(random.create(4) + 38); } }\n"


class FailedInFilms(LabCase):
    """Films with --failures."""

    def setUp(self) -> None:
        super().setUp()
        atoms = "".join(f"atom {x} {y} Frail\n" for y in range(2, 14) for x in range(2, 14))
        self.world = self.file("w", f"feast 1\ntiles 2 1\nsize 8 16\nseed 5\nattempts 300\n{atoms}order seed 9\n")
        self.element = self.file("frail.ulam", FRAIL)
        self.report = self.file("r", feast("step", self.world, self.element))

    def listed(self) -> list[tuple[int, films.Site]]:
        """The failed events and their sites, as `failures` lists them."""
        rows = csv.DictReader(io.StringIO(self.passes("failures", self.world, self.report, self.element, "--list")))
        return [(int(row["event"]), (int(row["x"]), int(row["y"]))) for row in rows]

    def page(self) -> Path:
        """The film of the run."""
        page = self.room / "film.html"
        self.passes("film", self.world, self.report, self.element, "--failures", "--frames", "20", "-o", page)
        return page

    def test_column(self) -> None:
        """The column `failed` has how many events failed so far; without the option there is none."""
        words: list[Word] = ["film", self.world, self.report, self.element, "--csv", "--frames", "20"]
        rows = list(csv.DictReader(io.StringIO(self.passes(*words, "--failures"))))
        failed = self.listed()
        self.assertGreater(len(failed), 20)
        self.assertEqual([int(row["failed"]) for row in rows],
                         [sum(event <= int(row["events"]) for event, _ in failed) for row in rows])
        self.assertNotIn("failed", self.passes(*words))

    def test_frames(self) -> None:
        """Each frame of the page has the sites at which events failed since the one before."""
        shots = films.shots(self.page().read_text())
        failed, since = self.listed(), 0
        for shot in shots:
            self.assertEqual(shot.failed, Counter(site for event, site in failed if since < event <= shot.events))
            since = shot.events

    def test_refused(self) -> None:
        """What has no place for failed events is refused, and so is a chain without reports."""
        page = self.room / "film.html"
        for form in (["--svg", "9"], ["--svg-movie", "3"]):
            self.refused("--failures goes with", "film", self.world, self.report, self.element, "--failures", *form)
        folder = self.room / "chain"
        self.passes("chain", folder, "--legs", "1", "--step", self.world, self.element)
        self.refused("the chain keeps no reports", "film", folder, "--failures", "-o", page)

    def test_disagreement(self) -> None:
        """If the program makes events otherwise, no film is written, and the status is 1."""
        other = self.file("other.ulam", FRAIL.replace("38", "37"))
        lying = self.room / "lying"
        lying.write_text(f'#!/bin/sh\nif [ "$1" = pack ]; then exec {program()} pack {other}; fi\nexec {program()} "$@"\n')
        lying.chmod(0o755)
        page = self.room / "film.html"
        done = lab("film", self.world, self.report, self.element, "--failures", "-o", page, instead=lying)
        self.assertEqual((done.returncode, done.stdout, page.exists()), (1, "", False))
        self.assertRegex(done.stderr, r"\Alab: the lab comes to other atoms than the program's replay, [^\n]*\n\Z")

    def test_crosses(self) -> None:
        """A browser shows a red cross at each of these sites, and how many there were."""
        path = chromium()
        if path is None:
            raise unittest.SkipTest("no Chromium")
        with tempfile.TemporaryDirectory(ignore_cleanup_errors=True) as folder:
            browser = Browser(path, Path(folder) / "browser")
            self.addCleanup(browser.close)
            browser.resize(1280, 900)
            browser.open(self.page().as_uri(), READY)
            shots = films.shots((self.room / "film.html").read_text())
            for _ in range(3):
                browser.value("document.getElementById('on').click()")
            failed = shots[3].failed
            colors = browser.value(COLORS)
            red = {(x, y) for y in range(16) for x in range(16) if colors[y][x] == "#c00000"}
            self.assertEqual(red, set(failed))
            label = browser.value("document.getElementById('failed-label').textContent")
            self.assertTrue(label.startswith(f"{failed.total()} event"), label)
            self.assertTrue(label.endswith(f" {len(self.listed())} in all"), label)
            browser.value("document.getElementById('failed').click()")
            self.assertNotIn("#c00000", [color for row in browser.value(COLORS) for color in row])
