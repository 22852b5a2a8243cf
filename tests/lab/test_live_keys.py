"""The keys of the live page, in Chromium and in Firefox: orders on every layout, none while one writes, painting without a mouse."""
import time

from firefox import Firefox, firefox
from living import Living
from test_live import ELEMENTS, WORLD
from test_live_page import LEG, READY
from two_browsers import TwoBrowsers

# Signs as a layout has them: the sign, whether Shift is held, and the place of the key.
LAYOUTS = {
    "US": {"slower": ("<", True, "Comma"), "faster": (">", True, "Period"), "nearer": ("+", True, "Equal")},
    "German": {"slower": ("<", False, "IntlBackslash"), "faster": (">", True, "IntlBackslash"), "nearer": ("+", False, "BracketRight")},
}
# How often a part of the page changes that a screen reader reads out.
READ_OUT = """(() => {
  window.readOut = 0;
  const watch = new MutationObserver((changes) => (window.readOut += changes.length));
  const parts = document.querySelectorAll('[aria-live], [role="status"], [role="alert"], [role="log"], output');
  for (const part of parts) watch.observe(part, { subtree: true, childList: true, characterData: true });
  return parts.length;
})()"""
HEARD = "document.getElementById('heard').textContent"


class Keys(TwoBrowsers):
    """The keys, in Chromium."""

    def setUp(self) -> None:
        super().setUp()
        self.live: Living = self.living("--step", self.chain, WORLD, ELEMENTS)
        self.browser.resize(1280, 900)
        self.browser.open(self.live.address, READY)

    def makes(self, attempts: int) -> None:
        """Waits until legs have so many attempts."""
        self.browser.wait(f"document.getElementById('pace').textContent.startsWith('{attempts:,} ')")

    def has_legs(self, legs: int) -> None:
        """Waits until there are so many legs."""
        self.browser.wait(f"{LEG} === {legs}")

    def waits(self, acts: list[str]) -> None:
        """Waits until these acts are on record."""
        end = time.monotonic() + 60
        while self.acts() != acts and time.monotonic() < end:
            time.sleep(0.05)
        self.assertEqual(self.acts(), acts)

    def test_layouts(self) -> None:
        """Signs and letters give their orders on each layout, with Shift and with Caps Lock."""
        first = self.live.shot()["attempts"]
        for layout in LAYOUTS.values():
            self.browser.letter(*layout["slower"])
            self.makes(first // 2)
            self.browser.letter(*layout["faster"])
            self.makes(first)
            side = self.browser.value("document.getElementById('plane').style.touchAction")
            self.browser.letter(*layout["nearer"])
            self.assertEqual((side, self.browser.value("document.getElementById('plane').style.touchAction")), ("", "none"))
            self.browser.letter("0")
        for legs, (letter, shift) in enumerate([("n", False), ("N", True), ("N", False)], 1):
            self.browser.letter(letter, shift, "KeyN")
            self.has_legs(legs)
        self.clicks("#letter-keys")
        self.browser.letter("n", False, "KeyN")
        time.sleep(0.3)
        self.has_legs(3)

    def test_after_a_choice(self) -> None:
        """The keys are the page's after a tool, an element or a box was chosen with the mouse."""
        legs = 0
        for choice in ("[value=paint]", "#borders", "[value=erase]"):
            self.clicks(choice)
            self.browser.letter("n", False, "KeyN")
            legs += 1
            self.has_legs(legs)
        self.assertEqual(self.browser.value("document.querySelector('[name=tool]:checked').value"), "erase")
        self.browser.press("ArrowRight")
        self.assertEqual(self.browser.value("document.querySelector('[name=tool]:checked').value"), "erase")
        self.browser.value("document.querySelector('[name=tool]:checked').focus()")  # as by the Tab key
        self.browser.press("ArrowRight")
        self.assertEqual(self.browser.value("document.querySelector('[name=tool]:checked').value"), "clear")
        self.browser.letter("n", False, "KeyN")
        self.has_legs(legs + 1)

    def test_writing(self) -> None:
        """What is written into a field gives no order."""
        self.clicks("[value=stamp]")
        self.clicks("#drawing-keys")
        for letter in "nu<+0 ":
            self.browser.letter(letter)
        self.assertEqual(self.browser.value("document.getElementById('drawing-keys').value"), "nu<+0 ")
        time.sleep(0.3)
        self.assertEqual((self.text("fault"), self.text("play"), self.live.shot()["leg"]), ("", "Play", 0))

    def test_painting(self) -> None:
        """The plane is painted, cleared and damaged by keys alone."""
        self.browser.value("document.querySelector('[value=paint]').click()")
        self.browser.value("document.getElementById('plane').focus()")
        self.browser.press("ArrowRight", shift=True)
        self.assertEqual(self.browser.value(HEARD).split(":")[0], "Column 1, row 0")
        self.browser.press("Enter")
        put = ["1:put:Regulator:1,0"]
        self.waits(put)
        self.browser.value("document.querySelector('[value=clear]').click()")
        self.browser.press("Enter")
        self.assertIn("other corner", self.browser.value(HEARD))
        self.browser.press("Escape")
        self.browser.press("Enter")
        for key in ("ArrowRight", "ArrowDown", "ArrowDown"):
            self.browser.press(key, shift=True)
        self.browser.press("Enter")
        self.waits([*put, "1:clear:1,0,2,3"])

    def test_reader(self) -> None:
        """While the plane runs a screen reader is told nothing, though a site is chosen; that is read when it is chosen."""
        self.browser.value("document.getElementById('plane').focus()")
        self.assertGreater(self.browser.value(READ_OUT), 2)
        self.browser.press(" ")
        self.browser.wait(f"{LEG} >= 5")
        self.browser.press(" ")
        self.browser.wait("document.getElementById('play').textContent === 'Play'")
        self.assertEqual(self.browser.value("window.readOut"), 0)
        self.browser.press("ArrowDown", shift=True)
        self.browser.wait("window.readOut > 0")
        self.assertTrue(self.browser.value(HEARD).startswith("Column 0, row 1: "))


class KeysInFirefox(Keys):
    """The keys, in Firefox."""

    finds = staticmethod(firefox)
    opens = Firefox
