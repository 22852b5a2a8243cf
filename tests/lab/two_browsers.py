"""Tests of the live page that run in Chromium and, in a class that says so, in Firefox."""
import tempfile
import unittest
from collections.abc import Callable
from pathlib import Path

from browser import Browser, chromium
from firefox import Firefox
from test_live import LiveCase


class TwoBrowsers(LiveCase):
    """A test in a browser: that of `opens`, which `finds` looks for."""

    finds: Callable[[], str | None] = staticmethod(chromium)
    opens: type[Browser] | type[Firefox] = Browser
    browser: Browser | Firefox

    @classmethod
    def setUpClass(cls) -> None:
        path = cls.finds()
        if path is None:
            raise unittest.SkipTest(f"no {cls.opens.__name__}")
        room = tempfile.TemporaryDirectory(ignore_cleanup_errors=True)
        cls.addClassCleanup(room.cleanup)
        cls.browser = cls.opens(path, Path(room.name) / "browser")
        cls.addClassCleanup(cls.browser.close)

    def text(self, part: str) -> str:
        """The text of a part of the page."""
        return str(self.browser.value(f"document.getElementById('{part}').textContent"))

    def box(self, selector: str) -> list[float]:
        """Where a part of the page is in the window: left, top, width and height."""
        box = f"document.querySelector('{selector}').getBoundingClientRect()"
        found: list[float] = self.browser.value(f"[{box}.left, {box}.top, {box}.width, {box}.height]")
        return found

    def clicks(self, selector: str) -> None:
        """Clicks with the mouse in the midst of a part of the page."""
        self.browser.value(f"document.querySelector('{selector}').scrollIntoView({{ block: 'center' }})")
        left, top, width, height = self.box(selector)
        self.browser.click(left + width / 2, top + height / 2)
