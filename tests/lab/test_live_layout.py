"""The layout of the live page, in Chromium and in Firefox: nothing moves when a message comes or goes, and the plane takes the room."""
from collections.abc import Callable

from firefox import Firefox, firefox
from living import Living
from test_live import ELEMENTS, KINDS, WORLD
from test_live_page import READY
from two_browsers import TwoBrowsers

LARGEST = "feast 1\ntiles 8 8\nsize 64 64\nseed 1\nattempts 10\natom 100 100 Wall\n"


class Layout(TwoBrowsers):
    """The layout, in Chromium."""

    def shows(self, live: Living) -> None:
        """Opens the page of a chain."""
        self.browser.open(live.address, READY)

    def press(self, part: str) -> None:
        """Presses a button."""
        self.browser.value(f"document.getElementById('{part}').click()")

    def places(self) -> dict[str, list[float]]:
        """Where the plane and what one presses is."""
        parts = ("plane", "play", "leg", "undo", "fork", "borders")
        return {part: self.box(f"#{part}") for part in (*parts, "elements")}

    def test_messages(self) -> None:
        """The plane and the buttons stay where they are when a message or a line of text comes or goes."""
        file = self.file("regulator.ulam", ELEMENTS.read_text())
        live = self.living("--step", self.chain, WORLD, file)
        self.browser.resize(1280, 900)
        self.shows(live)
        before = self.places()
        self.press("fork")
        self.browser.wait("!document.getElementById('said').hidden")
        self.assertEqual(self.places(), before)
        file.write_text("\n" + ELEMENTS.read_text().replace("behave", "be have"))
        self.press("reload")
        self.browser.wait("!document.getElementById('fault').hidden")
        self.assertEqual(len(self.text("fault").splitlines()), 3)
        self.assertEqual(self.places(), before)
        bottom = sum(self.box("#messages")[1::2])
        self.assertLessEqual(bottom, before["plane"][1])
        self.does(live, {"do": "act", "acts": ["clear:0,0,3,3", "erase:0.5:0,0,9,9", "clear:1,1"]})
        self.browser.wait("document.getElementById('done').textContent !== ''")
        self.assertEqual(self.places(), before)

    def test_over(self) -> None:
        """What is said of a fork goes when something else is ordered, and by Esc."""
        self.shows(self.living("--step", self.chain, WORLD, ELEMENTS))
        ends: list[Callable[[], None]] = [lambda: self.press("faster"), lambda: self.browser.press("Escape")]
        for end in ends:
            self.press("fork")
            self.browser.wait("document.getElementById('said').textContent.includes('is copied')")
            end()
            self.browser.wait("document.getElementById('said').hidden")

    def test_room(self) -> None:
        """The plane is as big as the window lets it be, with its buttons in sight."""
        self.shows(self.living("--step", self.chain, WORLD, ELEMENTS))
        for width, height in ((1280, 720), (1400, 840), (1280, 1000), (1900, 1000)):
            self.browser.resize(width, height)
            self.browser.wait(f"window.innerWidth === {width} && window.innerHeight === {height}")
            self.browser.wait(f"document.getElementById('plane').offsetHeight > {0.55 * height}")
            for part in ("play", "reload", "moment"):
                self.assertLessEqual(sum(self.box(f"#{part}")[1::2]), height, (width, height, part))

    def test_largest(self) -> None:
        """On the largest plane the page says how a site can be seen, until it can."""
        self.browser.resize(1280, 900)
        self.shows(self.living("--step", self.chain, self.file("w", LARGEST), self.file("e.ulam", KINDS)))
        self.assertEqual(self.text("small"),
                         "A site is 1 point wide here: zoom in with the mouse wheel, + or the button to see one.")
        for _ in range(2):
            self.press("nearer")
        self.assertEqual(self.text("small"), "")


class LayoutInFirefox(Layout):
    """The layout, in Firefox."""

    finds = staticmethod(firefox)
    opens = Firefox
