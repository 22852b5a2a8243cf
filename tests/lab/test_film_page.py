"""The page of a film in a real browser: headless Chromium opens it from its file, plays it, and is asked what it shows.

FEAST_PICTURES names a folder that the pictures of the window go to; without it they go away with the test.
"""
import csv
import io
import json
import os
import tempfile
import unittest
from collections import Counter
from pathlib import Path
from typing import Any

import films
from browser import Browser, chromium
from calls import EXAMPLES, LabCase, feast, lab

READY = """document.readyState === 'complete'
    && !(document.getElementById('film').hidden && document.getElementById('fault').hidden)"""
COUNTS = """Object.fromEntries([...document.querySelectorAll('#elements tbody tr')].map(
    (row) => [row.cells[1].textContent, Number(row.cells[2].textContent.replaceAll(',', ''))]))"""
# the colour of each site, near its corner, where no letter is
COLORS = """(() => {
  const canvas = document.getElementById('plane');
  const side = (canvas.width - 2) / %d;
  const pen = canvas.getContext('2d', { willReadFrequently: true });
  const hex = (x, y) => '#' + [...pen.getImageData(1 + (x + 0.2) * side, 1 + (y + 0.2) * side, 1, 1).data.slice(0, 3)]
    .map((part) => part.toString(16).padStart(2, '0')).join('');
  return Array.from({ length: %d }, (_, y) => Array.from({ length: %d }, (_, x) => hex(x, y)));
})()"""
MEMBERS = """Object.fromEntries([...document.querySelectorAll('#site dt')].map(
    (name) => [name.textContent, name.nextSibling.textContent]))"""
# texts whose colour is too near to that of what is behind them
PALE = """(() => {
  const shine = (color) => {
    const part = (v) => (v <= 10 ? v / 3294.6 : ((v / 255 + 0.055) / 1.055) ** 2.4);
    const [r, g, b] = color.match(/[\\d.]+/g).map(Number);
    return 0.2126 * part(r) + 0.7152 * part(g) + 0.0722 * part(b);
  };
  const ground = (node) => {
    const color = getComputedStyle(node).backgroundColor;
    return color.startsWith('rgba(0, 0, 0, 0') && node.parentElement ? ground(node.parentElement) : color;
  };
  const own = [...document.querySelectorAll('body *')].filter(
    (node) => node.checkVisibility() && [...node.childNodes].some((it) => it.nodeType === 3 && it.data.trim()));
  return own.filter((node) => {
    const [one, other] = [shine(getComputedStyle(node).color), shine(ground(node))];
    return (Math.max(one, other) + 0.05) / (Math.min(one, other) + 0.05) < 4.5;
  }).map((node) => node.textContent);
})()"""
# the colour of a point of the plane in its fourth row
BORDER = "[...document.getElementById('plane').getContext('2d').getImageData(%s, 3, 1, 1).data].join(' ')"
# how many colours a site has within its edges
INKS = """(() => {
  const canvas = document.getElementById('plane');
  const side = (canvas.width - 2) / 16;
  const data = canvas.getContext('2d').getImageData(3 + %d * side, 3 + %d * side, side - 5, side - 5).data;
  return new Set(Array.from({ length: data.length / 4 }, (_, i) => data.slice(4 * i, 4 * i + 3).join())).size;
})()"""
# whether a script that is put into the page is kept from running
PLANTED = """(() => {
  const script = document.createElement('script');
  script.textContent = 'window.planted = true';
  document.head.append(script);
  return window.planted === undefined;
})()"""
# counts how often the sites are painted
PAINTS = """(() => {
  const { paintSites } = PlaneView.prototype;
  window.paints = 0;
  PlaneView.prototype.paintSites = function () { window.paints++; paintSites.call(this); };
})()"""
DRAWN = "new Promise((done) => requestAnimationFrame(() => requestAnimationFrame(() => done(true))))"
WORLD, ELEMENTS = EXAMPLES / "fence-tiles.world", EXAMPLES / "fence.ulam"
NAMED = ("button", "slider", "checkbox", "combobox", "spinbutton", "application", "image")
KINDS = """
quark Pair { Int(5) less; Bool truth; }
/** \\symbol K \\color #ffff00 */
element Kinds {
  Int(6) low; Unsigned(9) high; Unary(5) ones; Bits(7) bits; Bool no; Pair pair; Unsigned(4) list[3]; Int(3) last[2];
  Void behave() { }
}
"""
KINDS_WORLD = """feast 1
tiles 1 1
size 9 8
atom 2 3 Kinds
atom 3 3 Kinds 7fffffffffffffffff
atom 8 7 Kinds 2a95ab56ad5ab56ad5
"""


def setUpModule() -> None:
    if chromium() is None:
        raise unittest.SkipTest("no Chromium")


def made(world: Path, file: Path, report: Path, page: Path) -> films.Plane:
    """Makes the film of a stepped run; gives back the atoms at its end, as the report has them."""
    report.write_text(feast("step", world, file))
    done = lab("film", world, report, "--frames", "40", "-o", page, file)
    assert done.returncode == 0, done.stderr
    return films.plane_of(report.read_text().split("\njournal ")[0].splitlines()[2:])


class FilmPage(LabCase):
    """A film that a browser shows."""

    browser: Browser
    shared: Path

    @classmethod
    def setUpClass(cls) -> None:
        path = chromium()
        assert path is not None
        room = tempfile.TemporaryDirectory(ignore_cleanup_errors=True)
        cls.addClassCleanup(room.cleanup)
        cls.shared = Path(room.name)
        cls.browser = Browser(path, cls.shared / "browser")
        cls.addClassCleanup(cls.browser.close)

    def open(self, page: Path) -> None:
        """Opens a page that shows its film."""
        self.browser.resize(1280, 900)
        self.browser.open(page.as_uri(), READY)
        self.assertEqual(self.text("fault"), "")

    def shown(self, world: Path, file: Path) -> films.Plane:
        """Opens the film of a stepped run; gives back the atoms at its end, as the report has them."""
        report, page = self.room / "report", self.room / "film.html"
        plane = made(world, file, report, page)
        self.open(page)
        return plane

    def text(self, part: str) -> str:
        """The text of a part of the page."""
        return str(self.browser.value(f"document.getElementById('{part}').textContent"))

    def counts(self) -> dict[str, int]:
        """The numbers of atoms that the page shows."""
        found: dict[str, int] = self.browser.value(COUNTS)
        return found

    def colors(self, columns: int, rows: int) -> list[list[str]]:
        """The colours of the sites, row by row."""
        found: list[list[str]] = self.browser.value(COLORS % (columns, rows, columns))
        return found

    def box(self, part: str) -> tuple[float, float, float, float]:
        """Where a part of the page is in the window: left, top, width and height."""
        box = self.browser.value(f"document.getElementById('{part}').getBoundingClientRect().toJSON()")
        return box["left"], box["top"], box["width"], box["height"]

    def click_site(self, x: int, y: int, columns: int, rows: int) -> None:
        """Clicks in the middle of a site."""
        left, top, width, height = self.box("plane")
        self.browser.click(left + (x + 0.5) * width / columns, top + (y + 0.5) * height / rows)

    def picture(self, name: str) -> None:
        """Takes a picture of the window."""
        folder = Path(os.environ.get("FEAST_PICTURES", self.room))
        self.browser.picture(folder / f"{name}.png")

    def agrees(self, atoms: films.Plane, colors: dict[str, str], columns: int, rows: int) -> None:
        """Tries that the page shows these atoms and no others: their counts and their colours."""
        counts = Counter(atom.split()[0] for atom in atoms.values())
        self.assertEqual(self.counts(), {name: counts[name] for name in colors})
        wanted = [[colors[atoms[x, y].split()[0]] if (x, y) in atoms else "#ffffff" for x in range(columns)] for y in range(rows)]
        self.assertEqual(self.colors(columns, rows), wanted)


class Fence(FilmPage):
    """The film of the fence."""

    report: Path
    page: Path
    end: films.Plane
    shots: list[films.Shot]
    colors_of: dict[str, str]

    @classmethod
    def setUpClass(cls) -> None:
        super().setUpClass()
        cls.report, cls.page = cls.shared / "report", cls.shared / "film.html"
        cls.end = made(WORLD, ELEMENTS, cls.report, cls.page)
        cls.shots = films.shots(cls.page.read_text())
        cls.colors_of = {element["name"]: element["color"] for element in films.head(cls.page.read_text())["elements"]}

    def setUp(self) -> None:
        super().setUp()
        self.open(self.page)

    def test_frames(self) -> None:
        """The first, the middle and the last frame show what `rewind` and the report say."""
        self.agrees(self.shots[0].atoms, self.colors_of, 16, 16)
        self.picture("fence-start")
        for _ in range(20):
            self.browser.press("ArrowRight")
        last = int(self.report.read_text().split("\njournal ")[1].split()[0])
        self.assertIn(f"Frame 20 of 40: after {last // 2:,} of {last:,} events", self.text("moment"))
        wanted = feast("rewind", WORLD, self.report, str(last // 2), ELEMENTS)
        self.agrees(films.plane_of(wanted.splitlines()[2:]), self.colors_of, 16, 16)
        self.picture("fence-midst")
        self.browser.press("End")
        self.agrees(self.end, self.colors_of, 16, 16)
        self.picture("fence-end")
        self.browser.press("ArrowLeft")
        self.agrees(self.shots[39].atoms, self.colors_of, 16, 16)
        self.browser.press("Home")
        self.agrees(self.shots[0].atoms, self.colors_of, 16, 16)

    def test_drift(self) -> None:
        """Below the plane stands that the tiles of this run were apart."""
        self.assertTrue(self.browser.value("document.getElementById('mixed').checkVisibility()"))
        self.assertEqual(self.text("mixed"), films.head(self.page.read_text())["mixed"])
        self.assertRegex(self.text("mixed"), r"^The tiles did not keep pace: at one moment a tile was \d\d % of its events ahead")

    def test_members(self) -> None:
        """A click on each atom shows its members."""
        self.browser.press("End")
        rows = csv.DictReader(io.StringIO(self.passes("atoms", self.report, ELEMENTS)))
        for row in rows:
            x, y = int(row["x"]), int(row["y"])
            self.click_site(x, y, 16, 16)
            self.assertIn(f"Column {x}, row {y}, in tile {y // 8 * 2 + x // 8}: {row['element']}", self.text("site"))
            shown = self.browser.value(MEMBERS)
            self.assertEqual(shown.pop("whole state"), self.end[x, y].split()[1])
            self.assertEqual(shown, {"place": row["place"]} if row["place"] else {})
        self.click_site(0, 0, 16, 16)
        self.assertEqual(self.text("site"), "Column 0, row 0, in tile 0: Empty")

    def test_controls(self) -> None:
        """Play and pause by the key and the button, the slider, the curves."""
        self.browser.value("document.getElementById('speed').value = '30'")
        self.browser.press(" ")
        self.assertEqual(self.text("play"), "Pause")
        self.browser.wait("Number(document.getElementById('slider').value) > 3")
        self.browser.press(" ")
        self.assertEqual(self.text("play"), "Play")
        left, top, width, height = self.box("play")
        self.browser.click(left + width / 2, top + height / 2)
        self.browser.wait("document.getElementById('slider').value === '40'")
        self.assertEqual(self.text("play"), "Play")
        left, top, width, height = self.box("slider")
        self.browser.click(left + width / 2, top + height / 2)
        self.assertIn("Frame 20 of 40", self.text("moment"))
        left, top, width, height = self.box("chart")
        self.browser.click(left + width - 30, top + height / 2)
        self.assertIn("Frame 40 of 40", self.text("moment"))

    def test_keys(self) -> None:
        """The plane gets the focus by the first Tab; Shift and the arrows move over it, and fields choose too."""
        self.browser.press("Tab")
        self.assertEqual(self.browser.value("document.activeElement.id"), "plane")
        self.assertEqual(self.browser.value("getComputedStyle(document.activeElement).outlineStyle"), "solid")
        for key in (*["ArrowRight"] * 3, *["ArrowDown"] * 7, "ArrowLeft"):
            self.browser.press(key, shift=True)
        self.assertIn("Column 2, row 7, in tile 0: Fence", self.text("site"))
        self.browser.value("document.getElementById('column').value = 13")
        self.browser.value("document.getElementById('row').value = 3")
        self.browser.value("document.getElementById('row').dispatchEvent(new Event('input'))")
        self.assertIn("Column 13, row 3, in tile 1: Mouse", self.text("site"))
        self.browser.value("document.getElementById('row').value = 99")
        self.browser.value("document.getElementById('row').dispatchEvent(new Event('input'))")
        self.assertIn("Column 13, row 3", self.text("site"))

    def test_access(self) -> None:
        """Each control has a name, each text can be read, and small windows show all of it."""
        nodes = self.browser.call("Accessibility.getFullAXTree")["nodes"]
        controls = [node for node in nodes if node.get("role", {}).get("value") in NAMED]
        self.assertEqual(len(controls), 20)
        self.assertEqual([node for node in controls if not node["name"]["value"].strip()], [])
        self.assertEqual(self.browser.value(PALE), [])
        for width, height, scale in ((1280, 700, 1), (768, 1024, 2), (320, 568, 2)):
            self.browser.resize(width, height, scale)
            self.browser.wait("document.getElementById('plane').getBoundingClientRect().width <= window.innerWidth")
            self.assertLessEqual(self.browser.value("document.documentElement.scrollWidth"), width)
            self.agrees(self.shots[0].atoms, self.colors_of, 16, 16)
            self.picture(f"fence-{width}")

    def test_network(self) -> None:
        """The page asks for nothing but its own file, and the browser has nothing to complain of."""
        self.assertEqual(self.browser.requests(), [self.page.as_uri()])
        said = [event for event in self.browser.events if event.get("method") in ("Log.entryAdded", "Runtime.exceptionThrown")]
        self.assertEqual(said, [])

    def test_policy(self) -> None:
        """The page runs no script but its own."""
        self.assertTrue(self.browser.value(PLANTED))

    def test_dragging(self) -> None:
        """A plane that is dragged is moved, and its sites aren't painted anew."""
        for _ in range(2):
            self.browser.letter("+")
        self.browser.value(PAINTS)
        left, top, width, height = self.box("plane")
        self.browser.drag([(left + width / 2 + 5 * step, top + height / 2) for step in range(8)])
        self.assertEqual(self.browser.value("window.paints"), 0)
        self.browser.press("ArrowRight")
        self.assertEqual(self.browser.value("window.paints"), 1)

    def test_address(self) -> None:
        """The address may name a frame, from the start and also while the page is open."""
        for frame in ("7", "39", "0", "99"):
            self.browser.value(f"window.location.hash = '#frame={frame}'")
            self.browser.wait(f"document.getElementById('slider').value === '{min(int(frame), 40)}'")
        self.browser.open("about:blank", "window.location.href === 'about:blank'")
        self.browser.open(f"{self.page.as_uri()}#frame=23", READY)
        self.assertIn("Frame 23 of 40", self.text("moment"))
        self.agrees(self.shots[23].atoms, self.colors_of, 16, 16)

    def test_looks(self) -> None:
        """Elements, borders of tiles and letters are shown as they are chosen."""
        self.browser.press("End")
        fences = {site for site, atom in self.end.items() if atom.startswith("Fence")}
        self.browser.value("document.querySelector('[aria-label=\"Show Mouse\"]').click()")
        wanted = [[self.colors_of["Fence"] if (x, y) in fences else "#ffffff" for x in range(16)] for y in range(16)]
        self.assertEqual(self.colors(16, 16), wanted)
        middle = BORDER % "document.getElementById('plane').width / 2"
        self.assertEqual(self.browser.value(middle), "60 68 76 255")
        self.browser.value("document.getElementById('borders').click()")
        self.assertNotEqual(self.browser.value(middle), "60 68 76 255")
        inks = INKS % min(fences)
        self.assertGreater(self.browser.value(inks), 1)
        self.browser.value("document.getElementById('letters').click()")
        self.assertEqual(self.browser.value(inks), 1)

    def test_member(self) -> None:
        """Coloured by a member, its least and its greatest value in the film have the ends of the scale; others are grey."""
        self.browser.value("document.getElementById('color-by').value = 'Fence.place'")
        self.browser.value("document.getElementById('color-by').dispatchEvent(new Event('change'))")
        places = [(int(atom.split()[1], 16), frame, site) for frame, shot in enumerate(self.shots)
                  for site, atom in shot.atoms.items() if atom.startswith("Fence")]
        for (_, frame, site), color in ((min(places), "#440154"), (max(places), "#fde725")):
            self.browser.value(f"window.location.hash = '#frame={frame}'")
            self.browser.wait(f"document.getElementById('slider').value === '{frame}'")
            colors = {(x, y): self.colors(16, 16)[y][x] for x, y in self.shots[frame].atoms}
            self.assertEqual(colors[site], color)
            self.assertEqual({colors[it] for it, atom in self.shots[frame].atoms.items() if atom.startswith("Mouse")}, {"#c9cdd1"})
            here = [it[::2] for it in places if it[1] == frame]
            self.assertEqual(len({colors[it] for _, it in here}), len({place for place, _ in here}))

    def test_zoom(self) -> None:
        """The wheel zooms about the mouse, a drag moves the plane, and a click then chooses what is shown there."""
        left, top, width, height = self.box("plane")
        side = width / 16
        x, y = left + 3.5 * side, top + 9.5 * height / 16
        for _ in range(2):
            self.browser.call("Input.dispatchMouseEvent", type="mouseWheel", x=x, y=y, deltaX=0, deltaY=-100)
            self.browser.value(DRAWN)  # so that the browser doesn't make one of two turns
        for at, column in ((x, 3), (x + 0.7 * side, 3), (x + 2 * side, 4)):
            self.browser.click(at, y)
            self.assertIn(f"Column {column}, row 9", self.text("site"))
        self.browser.drag([(x, y), (x + 30, y), (x + 2 * side, y)])
        self.browser.value(DRAWN)
        self.assertIn("Column 4, row 9", self.text("site"))
        for at, column in ((x + 2 * side, 3), (x, 2)):
            self.browser.click(at, y)
            self.assertIn(f"Column {column}, row 9", self.text("site"))
        self.picture("fence-zoom")
        self.browser.press("0")
        self.browser.click(x, y)
        self.assertIn("Column 3, row 9", self.text("site"))

    def test_dark(self) -> None:
        """In a dark system the page is dark, and its texts can be read."""
        self.browser.call("Emulation.setEmulatedMedia", features=[{"name": "prefers-color-scheme", "value": "dark"}])
        self.addCleanup(self.browser.call, "Emulation.setEmulatedMedia", features=[])
        self.browser.wait("getComputedStyle(document.body).backgroundColor === 'rgb(31, 36, 41)'")
        self.assertEqual(self.browser.value(PALE), [])
        self.browser.press("End")
        empty = min({(x, y) for x in range(16) for y in range(16)} - set(self.end))
        self.assertEqual(self.colors(16, 16)[empty[1]][empty[0]], "#2b3138")
        self.picture("fence-dark")


class Others(FilmPage):
    """Other films."""

    def test_kinds(self) -> None:
        """Members of all kinds are shown as the verb `atoms` has them."""
        file, world = self.file("kinds.ulam", KINDS), self.file("kinds.world", KINDS_WORLD)
        atoms = self.shown(world, file)
        self.agrees(atoms, {"Kinds": "#ffff00"}, 9, 8)
        for row in csv.DictReader(io.StringIO(self.passes("atoms", self.room / "report", file))):
            self.click_site(int(row["x"]), int(row["y"]), 9, 8)
            shown: dict[str, Any] = self.browser.value(MEMBERS)
            self.assertEqual(shown.pop("whole state"), atoms[int(row["x"]), int(row["y"])].split()[1])
            numbers = {name: {"true": "1", "false": "0"}.get(value, value) for name, value in shown.items()}
            self.assertEqual(numbers, {name: row[name] for name in list(row)[3:]})

    def test_off(self) -> None:
        """A tile that is off is grey, and its sites tell so."""
        world = self.file("off.world", "feast 2\ntiles 2 1\nsize 8 8\noff 1\nseed 3\nattempts 50\natom 4 4 Mouse\n")
        self.shown(world, EXAMPLES / "fence.ulam")
        self.assertEqual({color for row in self.colors(16, 8) for color in row[8:]}, {"#b9bdc1"})
        self.click_site(12, 4, 16, 8)
        self.assertEqual(self.text("site"), "Column 12, row 4, in tile 1, which is off: Empty")

    def test_title(self) -> None:
        """Names that mean something in HTML are shown as they are."""
        world = self.file("<b>&amp;.world", (EXAMPLES / "walk.world").read_text())
        self.shown(world, EXAMPLES / "walker.ulam")
        self.assertEqual(self.browser.value("document.title"), world.name)
        self.assertEqual(self.browser.value("document.querySelector('h1').textContent"), world.name)

    def test_damage(self) -> None:
        """A page whose frames are damaged says that it can't show them."""
        self.shown(EXAMPLES / "walk.world", EXAMPLES / "walker.ulam")
        page = self.room / "film.html"
        html = page.read_text()
        page.write_text(html.replace(films.part(html, "frames"), films.part(html, "frames")[:40]))
        self.browser.open(page.as_uri(), "document.readyState === 'complete' && !document.getElementById('fault').hidden")
        self.assertIn("can't show the film", self.text("fault"))
        self.assertEqual(json.loads(films.part(html, "head"))["tiles"], [1, 1])
