"""A film of a million states in a real browser: what it takes of memory, and that each frame shows its atoms."""
import json
import random
from pathlib import Path

import films
from calls import feast
from feast_lab.lab.film.data import Packer
from feast_lab.lab.film.frames import Frame
from test_film_page import FilmPage, setUpModule  # noqa: F401

SIDE, FRAMES = 64, 250
MOST = 45e6  # bytes that the page may take
ELEMENT = "element Cell { Unsigned(60) value; Unsigned(11) more; Void behave() { } }\n"
WORLD = f"feast 1\ntiles 1 1\nsize {SIDE} {SIDE}\nseed 1\nattempts 1\natom 0 0 Cell\n"
STATE = "[...document.querySelectorAll('#site dt')].find((it) => it.textContent === 'whole state').nextSibling.textContent"


class Memory(FilmPage):
    """A film in which each site has another atom in each frame."""

    def test_states(self) -> None:
        """It takes some ten bytes a state, and no object."""
        page, states = self.made()
        self.open(page)
        self.browser.call("HeapProfiler.collectGarbage")
        used = self.browser.call("Runtime.getHeapUsage")
        taken = used["usedSize"] + used.get("backingStorageSize", 0) + used.get("embedderHeapUsedSize", 0)
        self.browser.value("document.getElementById('column').value = 5")
        self.browser.value("document.getElementById('row').value = 2")
        self.browser.value("document.getElementById('row').dispatchEvent(new Event('input'))")
        for frame in (0, FRAMES, 7, 8, 100, 99, FRAMES - 1):
            self.browser.value(f"window.location.hash = '#frame={frame}'")
            self.browser.wait(f"document.getElementById('slider').value === '{frame}'")
            self.assertEqual(self.browser.value(STATE), states[frame], frame)
            self.assertRegex(self.text("abandoned-label"), f"^{frame % 3} attempts? abandoned since")
        self.assertLess(taken, MOST, f"{taken / 1e6:.0f} MB")

    def made(self) -> tuple[Path, list[str]]:
        """The page, and the states of the site at 5,2 in its frames."""
        world, file, page = self.file("w.world", WORLD), self.file("e.ulam", ELEMENT), self.room / "film.html"
        report = self.file("report", feast("step", world, file))
        self.passes("film", world, report, "--frames", "1", "-o", page, file)
        draw, packer, states = random.Random(1), Packer(["Cell"]), []
        for number in range(FRAMES + 1):
            frame = Frame(1000 * number, {site: f"Cell {draw.getrandbits(71):018x}" for site in range(SIDE * SIDE)})
            frame.abandoned = number % 3
            frame.places.update({site: 1 for site in range(number % 3)})
            states.append(frame.changes[2 * SIDE + 5].split()[1])
            packer.add(frame)
        html = page.read_text()
        head = films.head(html) | {"events": packer.events, "abandoned": packer.abandoned}
        text = json.dumps(head, separators=(",", ":")).replace("<", "\\u003c")
        page.write_text(html.replace(films.part(html, "head"), text).replace(films.part(html, "frames"), packer.packed()))
        return page, states
