"""A chain at work in a real browser: headless Chromium opens the page, plays, paints, damages and forks.

FEAST_PICTURES names a folder that the pictures of the window go to; without it they go away with the test.
"""
import csv
import signal
import time
import unittest

import films
import kept_chain
from browser import Browser, chromium
from calls import EXAMPLES, program
from living import Living
from test_film_failures import COLORS as MIDDLES
from test_film_page import NAMED, PALE, FilmPage
from test_live import LiveCase

READY = "document.readyState === 'complete' && !document.getElementById('film').hidden"
LEG = "Number(/Leg ([0-9,]+)/.exec(document.getElementById('moment').textContent)[1].replaceAll(',', ''))"
WORLD, ELEMENTS = EXAMPLES / "regulator-tiles.world", EXAMPLES / "regulator.ulam"
# The next order leaves the page after half a second; `answers` counts those that are answered from now on.
FIRST_IS_LATE = """(() => {
  const fetched = window.fetch;
  let late = 500;
  window.answers = 0;
  window.fetch = async (...words) => {
    const wait = late;
    late = 0;
    await new Promise((given) => setTimeout(given, wait));
    const answer = await fetched(...words);
    window.answers += 1;
    return answer;
  };
})()"""
# The page fails once to show what an order has come to; `failed` says whether it has.
SHOW_FAILS = """(() => {
  const { show } = LivePage.prototype;
  window.failed = false;
  LivePage.prototype.show = function () {
    if (!window.failed && new Error().stack.includes('.give')) {
      window.failed = true;
      throw new Error('not this time');
    }
    show.call(this);
  };
})()"""
BLUE, ORANGE = "#0072b2", "#e69f00"


def setUpModule() -> None:
    if chromium() is None:
        raise unittest.SkipTest("no Chromium")


class LivePage(FilmPage, LiveCase):
    """A live chain that a browser shows."""

    browser: Browser

    def shows(self, live: Living) -> None:
        """Opens the page of a chain."""
        self.browser.resize(1280, 1000)
        self.browser.open(live.address, READY)

    def press_button(self, part: str) -> None:
        """Clicks a button."""
        self.browser.value(f"document.getElementById('{part}').click()")

    def tool(self, name: str) -> None:
        """Takes a tool."""
        self.browser.value(f"document.querySelector('input[name=\"tool\"][value=\"{name}\"]').click()")

    def set(self, part: str, value: str) -> None:
        """Fills in a field."""
        self.browser.value(f"document.getElementById('{part}').value = {value!r}")
        self.browser.value(f"document.getElementById('{part}').dispatchEvent(new Event('change'))")

    def over(self, *sites: tuple[int, int]) -> None:
        """Drags the mouse over the middles of sites of a plane of 16 by 16."""
        left, top, width, height = self.box("plane")
        self.browser.drag([(left + (x + 0.5) * width / 16, top + (y + 0.5) * height / 16) for x, y in sites])

    def waits(self, acts: int) -> None:
        """Waits until so many acts are on record."""
        end = time.monotonic() + 600
        while len(self.acts()) != acts and time.monotonic() < end:
            time.sleep(0.05)
        self.assertEqual(len(self.acts()), acts, self.text("fault"))

    def shown_plane(self, atoms: films.Plane) -> None:
        """Tries that the page comes to show these atoms."""
        counts = {name: sum(atom.startswith(name) for atom in atoms.values()) for name in ("Regulator", "Resource")}
        self.browser.wait(f"document.querySelector('#elements tbody').rows[0].cells[2].textContent === '{counts['Regulator']}'"
                          f" && document.querySelector('#elements tbody').rows[1].cells[2].textContent === '{counts['Resource']}'")
        self.agrees(atoms, {"Regulator": BLUE, "Resource": ORANGE}, 16, 16)


class Regulator(LivePage):
    """The regulator: played, painted, damaged, forked, killed, and gone on with."""

    def test_scenario(self) -> None:
        slow = self.file("slow", "#!/bin/sh\n"
                                 f"case $* in run*chain*) test -e {self.room}/now && {{ touch {self.room}/there; sleep 60; }} ;; esac\n"
                                 f"exec {program()} \"$@\"\n")
        slow.chmod(0o755)
        live = self.living(self.chain, WORLD, ELEMENTS, instead=slow)
        leg, atoms = self.plays_and_pauses(live)
        self.takes_acts(leg)
        self.forks(live, leg, atoms)
        self.is_killed(live)
        self.goes_on(leg)
        for chain in (self.chain, self.room / "chain-fork1"):
            self.assertEqual(self.passes("chain", "--audit", chain), "yes\n")
        self.film_shows(leg)

    def plays_and_pauses(self, live: Living) -> tuple[int, films.Plane]:
        """Some legs, and the leg at which the page rests with its atoms, which it shows."""
        self.shows(live)
        self.assertEqual(self.text("play"), "Play")
        self.browser.press(" ")
        self.browser.wait(f"{LEG} >= 3")
        self.press_button("play")
        self.browser.wait("document.getElementById('play').textContent === 'Play'")
        leg: int = live.shot()["leg"]
        self.browser.wait(f"{LEG} === {leg}")
        atoms = films.plane_of(kept_chain.atoms(self.chain, leg))
        self.shown_plane(atoms)
        self.picture("live-pause")
        return leg, atoms

    def takes_acts(self, leg: int) -> None:
        """A brush, a rectangle, damage, and one act taken back."""
        self.tool("paint")
        self.set("element", "Regulator")
        self.over((1, 1), (5, 1))
        self.waits(1)
        self.assertEqual(self.acts()[0], f"{leg + 1}:put:Regulator:1,1,5,1")
        self.tool("clear")
        self.over((8, 8), (12, 15))
        self.waits(2)
        self.assertEqual(self.acts()[1], f"{leg + 1}:clear:8,8,5,8")
        self.tool("damage")
        self.set("chance", "0.5")
        self.over((0, 8), (7, 15))
        self.waits(3)
        self.assertEqual(self.acts()[2], f"{leg + 1}:erase:0.5:0,8,8,8")
        self.tool("erase")
        self.over((15, 0), (15, 2))
        self.waits(4)
        self.browser.wait("!document.getElementById('undo').disabled")
        self.press_button("undo")
        self.waits(3)
        self.picture("live-hands")

    def forks(self, live: Living, leg: int, atoms: films.Plane) -> None:
        """A fork, and one leg, which begins with what the acts made of the atoms."""
        self.press_button("fork")
        self.browser.wait("document.getElementById('said').textContent.includes('is copied to chain-fork1')")
        self.press_button("leg")
        self.browser.wait(f"{LEG} === {leg + 1}")
        live.shot(leg=leg + 1)
        begun = films.plane_of(self.begins(leg + 1))
        self.assertTrue(all(begun[x, 1].startswith("Regulator") for x in range(1, 6)))
        self.assertFalse(any(8 <= x < 13 and y >= 8 for x, y in begun))
        before = {site for site in atoms if site[0] < 8 and site[1] >= 8}
        self.assertTrue({site for site in begun if site[0] < 8 and site[1] >= 8} <= before)

    def is_killed(self, live: Living) -> None:
        """The chain is killed in the midst of a leg, and the page says so."""
        (self.room / "now").touch()
        self.press_button("play")
        end = time.monotonic() + 600
        while not (self.room / "there").exists():
            self.assertLess(time.monotonic(), end, "the program is not called")
            time.sleep(0.02)
        live.ends(signal.SIGKILL)
        (self.room / "now").unlink()
        self.browser.wait("document.getElementById('fault').textContent.includes('has ended')")

    def goes_on(self, leg: int) -> None:
        """The chain goes on after the last leg that it ended."""
        again = self.living(self.chain, WORLD, ELEMENTS)
        self.shows(again)
        self.browser.wait(f"{LEG} === {leg + 1}")
        self.press_button("play")
        self.browser.wait(f"{LEG} >= {leg + 4}")
        self.press_button("play")
        self.browser.wait("document.getElementById('play').textContent === 'Play'")
        self.assertEqual(self.browser.value("document.getElementById('fault').hidden"), True)
        self.picture("live-again")
        self.assertEqual(again.ends(signal.SIGINT)[0], 0)

    def film_shows(self, leg: int) -> None:
        """The film of the chain shows the acts in their frame."""
        page = self.room / "film.html"
        self.passes("film", self.chain, "--frames", "20", "-o", page)
        with (self.chain / "course.csv").open() as file:
            events = sum(int(row["events"]) for row in list(csv.DictReader(file))[:leg + 1])
        shots = films.shots(page.read_text())
        after = max(number for number, shot in enumerate(shots) if shot.events == events)
        self.open(page)
        self.browser.value(f"window.location.hash = '#frame={after}'")
        self.browser.wait(f"document.getElementById('slider').value === '{after}'")
        self.assertEqual(self.text("done"), "Done by hand: put:Regulator:1,1,5,1; clear:8,8,5,8; erase:0.5:0,8,8,8")
        self.shown_plane(films.plane_of(self.begins(leg + 1)))
        self.picture("live-film")


class Others(LivePage):
    """What else the page does."""

    def test_faults(self) -> None:
        """What is refused is said in the page, with a caret for an element file, and the plane stays."""
        file = self.file("regulator.ulam", ELEMENTS.read_text())
        live = self.living("--step", self.chain, WORLD, file)
        self.shows(live)
        self.tool("damage")
        self.set("chance", "half")
        self.over((0, 0), (3, 3))
        self.browser.wait("!document.getElementById('fault').hidden")
        self.assertEqual(self.text("fault"), "erase:half:0,0,4,4: half is no probability from 0 to 1 with at most nine digits behind "
                                             "the point, such as 0.25")
        self.tool("stamp")
        self.set("drawing", "x = 3, y = 1, rule = B3/S23\n3o!\n")
        self.set("drawing-keys", "o=Resource")
        # what is said last is of the order that was given last, though the one before it is late
        self.browser.value(FIRST_IS_LATE)
        self.over((14, 2))
        self.over((4, 2))
        self.browser.wait("window.answers === 2")
        time.sleep(0.5)
        self.assertTrue(self.browser.value("document.getElementById('fault').hidden"), self.text("fault"))
        self.waits(1)
        self.assertEqual(self.acts(), ["1:put:Resource:4,2,3,1"])
        lines = ELEMENTS.read_text().splitlines()
        number = next(at for at, line in enumerate(lines) if "behave" in line)
        file.write_text("\n".join([*lines[:number], "  Nothing such;", *lines[number:]]) + "\n")
        self.press_button("reload")
        self.browser.wait("document.getElementById('fault').textContent.includes('E31')")
        self.assertEqual(self.text("fault").split("\n"), [f"{file}:{number + 1}:3: E31 unknown name", "  Nothing such;", "  ^"])
        self.picture("live-refused")
        self.assertEqual(self.counts(), {"Regulator": 4, "Resource": 3})
        file.write_text(ELEMENTS.read_text() + "element Guest { Void behave() { } }\n")
        self.press_button("reload")
        self.browser.wait("document.querySelectorAll('#elements tbody tr').length === 3")
        self.assertEqual(self.counts(), {"Regulator": 4, "Resource": 3, "Guest": 0})
        offered = self.browser.value("[...document.getElementById('element').options].map((it) => it.value)")
        self.assertEqual(offered, ["Regulator", "Resource", "Guest"])

    def test_orders_after_a_failure(self) -> None:
        """An order after which the page can't show the chain is told of, and those behind it are given."""
        live = self.living("--step", self.chain, WORLD, ELEMENTS)
        self.shows(live)
        self.browser.value(SHOW_FAILS)
        self.press_button("fork")
        self.browser.wait("window.failed")
        self.browser.wait("document.getElementById('fault').textContent === 'The page could not show the chain: not this time.'")
        self.press_button("leg")
        self.browser.wait(f"{LEG} === 1")
        self.assertTrue(self.browser.value("document.getElementById('fault').hidden"))

    def test_members(self) -> None:
        """An element is painted with values of its members, and a click shows them."""
        live = self.living(self.chain, self.file("w", "feast 1\ntiles 1 1\nsize 16 16\nseed 1\nattempts 10\natom 0 0 Cell\n"),
                           self.file("e.ulam", "element Cell { Int(5) level; Bool on; Void behave() { } }\n"))
        self.shows(live)
        self.tool("paint")
        self.browser.value("document.querySelector('[data-member=\"level\"]').value = '-3'")
        self.browser.value("document.querySelector('[data-member=\"on\"]').value = 'true'")
        self.over((5, 5))
        self.waits(1)
        self.tool("look")
        self.browser.wait("document.querySelector('#elements tbody').rows[0].cells[2].textContent === '2'")
        self.over((5, 5))
        self.assertIn("Column 5, row 5, in tile 0: Cell", self.text("site"))
        self.assertRegex(self.text("site"), "level-3ontrue")
        self.set("color-by", "Cell.level")
        self.assertEqual(self.text("scales").split(), ["Cell.level:", "-3", "0"])

    def test_failures(self) -> None:
        """With --failures a red cross stands where events failed in the last leg, and how many did stands beside the plane."""
        live = self.frail()
        self.shows(live)
        self.press_button("leg")
        self.browser.wait(f"{LEG} === 1")
        live.shot(leg=1)
        gone = self.sites(0) - self.sites(1)
        self.assertEqual(self.text("failed-label"), f"{len(gone)} events failed in the last leg, {len(gone)} since the chain was opened")
        for has_crosses in (True, False):
            colors = [color for row in self.browser.value(MIDDLES) for color in row]
            self.assertEqual({site for site, color in enumerate(colors) if color == "#c00000"}, gone if has_crosses else set())
            self.press_button("failed")
        self.picture("live-failures")

    def test_access(self) -> None:
        """Each control has a name, each text can be read, small windows show all, and the page asks for its own parts alone."""
        live = self.living(self.chain, WORLD, ELEMENTS)
        for scheme in ("light", "dark"):
            self.browser.call("Emulation.setEmulatedMedia", features=[{"name": "prefers-color-scheme", "value": scheme}])
            self.addCleanup(self.browser.call, "Emulation.setEmulatedMedia", features=[])
            self.shows(live)
            for tool in ("look", "paint", "stamp"):
                self.tool(tool)
                nodes = self.browser.call("Accessibility.getFullAXTree")["nodes"]
                controls = [node for node in nodes if node.get("role", {}).get("value") in (*NAMED, "radio", "textbox")]
                self.assertGreater(len(controls), 20)
                self.assertEqual([node for node in controls if not node["name"]["value"].strip()], [])
                self.assertEqual(self.browser.value(PALE), [])
            self.browser.resize(320, 640, 2)
            self.browser.wait("document.documentElement.scrollWidth <= 320")
            self.picture(f"live-{scheme}")
        wanted = {live.address + name for name in ("", "page.css", "page.js", "events")}
        self.assertEqual({url for url in self.browser.requests() if not url.startswith("data:")}, wanted)
        said = [event for event in self.browser.events if event.get("method") in ("Log.entryAdded", "Runtime.exceptionThrown")]
        self.assertEqual(said, [])
