"""How far a command is: written over on a terminal, and now and then elsewhere."""
import io
import unittest
from unittest import mock

from feast_lab.lab.base.progress import ProgressLine


class Terminal(io.StringIO):
    """A terminal that keeps what is written to it."""

    def isatty(self) -> bool:
        return True


def shown(to: io.StringIO, total: float, done: float, moments: list[tuple[float, float]]) -> str:
    """What is written when so much is done at these moments."""
    with mock.patch("feast_lab.lab.base.progress.time.monotonic", return_value=100.0) as clock:
        progress = ProgressLine(to)
        progress.begin(total, done)
        for moment, part in moments:
            clock.return_value = 100.0 + moment
            progress.at(part, f"leg {part + 1:.0f}")
        progress.end()
    return to.getvalue()


class Progresses(unittest.TestCase):
    """Lines of progress."""

    def test_terminal(self) -> None:
        self.assertEqual(shown(Terminal(), 8, 2, [(0, 2), (0.1, 3), (50, 4), (7300, 5), (7310, 8)]),
                         "\rleg 3: 25 % done\x1b[K"
                         "\rleg 5: 50 % done, 1 min 40 s left\x1b[K"
                         "\rleg 6: 62 % done, 2 h 1 min left\x1b[K"
                         "\rleg 9: 100 % done\x1b[K\r\x1b[K")

    def test_elsewhere(self) -> None:
        self.assertEqual(shown(io.StringIO(), 100, 0, [(0, 0), (14, 10), (15, 20), (29, 30), (30, 75)]),
                         "leg 21: 20 % done, 1 min 0 s left\nleg 76: 75 % done, 10 s left\n")
