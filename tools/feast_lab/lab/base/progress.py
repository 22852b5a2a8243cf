"""How far a long work is, and how it is told to stop: objects that the work is given."""
import sys
import threading
import time
from typing import TextIO

from .errors import LabError

REWRITTEN_EVERY = 0.2
LINE_EVERY = 15.0


def duration(seconds: float) -> str:
    """A time in words."""
    whole = round(seconds)
    if whole < 60:
        return f"{whole} s"
    if whole < 3600:
        return f"{whole // 60} min {whole % 60} s"
    return f"{whole // 3600} h {whole % 3600 // 60} min"


class Progress:
    """Hears how far a work is. This one tells nobody."""

    def begin(self, total: float, done: float = 0) -> None:
        """A work of so much in all begins, of which so much is done already."""

    def at(self, done: float, part: str) -> None:
        """So much of the total is done, and this part is at work."""

    def end(self) -> None:
        """The work is over, or was given up."""


class ProgressLine(Progress):
    """Tells it in one line on standard error: what is at work, how much is done, and how long the rest will take.

    On a terminal the line is written over; elsewhere a new one follows now and then.
    """

    def __init__(self, to: TextIO | None = None) -> None:
        self.to = to or sys.stderr
        self.is_terminal = self.to.isatty()
        self.every = REWRITTEN_EVERY if self.is_terminal else LINE_EVERY
        self.is_open = False
        self.begin(1)

    def begin(self, total: float, done: float = 0) -> None:
        """Takes the time from now on."""
        self.total = max(total, 1)
        self.start_done = done
        self.began = time.monotonic()
        self.next = self.began + (0 if self.is_terminal else LINE_EVERY)

    def at(self, done: float, part: str) -> None:
        """Writes the line, if it is time for it."""
        now = time.monotonic()
        if now < self.next:
            return
        self.next = now + self.every
        line = f"{part}: {100 * done / self.total:.0f} % done{self.left(done, now)}"
        if self.is_terminal:
            self.to.write(f"\r{line}\x1b[K")
            self.is_open = True
        else:
            self.to.write(f"{line}\n")
        self.to.flush()

    def left(self, done: float, now: float) -> str:
        """How long the rest will take, if something is done by which to tell."""
        part = done - self.start_done
        if part <= 0 or done >= self.total:
            return ""
        return f", {duration((now - self.began) / part * (self.total - done))} left"

    def end(self) -> None:
        """Clears the line away."""
        if self.is_open:
            self.to.write("\r\x1b[K")
            self.to.flush()
            self.is_open = False


class Stop:
    """By this a work in another thread is told to stop. It does between two of its parts."""

    def __init__(self) -> None:
        self.is_set = threading.Event()

    def set(self) -> None:
        """Has the work stop."""
        self.is_set.set()

    def heed(self) -> None:
        """Raises LabError if the work is to stop."""
        if self.is_set.is_set():
            raise LabError("stopped")
