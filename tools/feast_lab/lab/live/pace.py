"""How long the legs of a chain are that is watched.

A leg costs something whatever its length: a world that is written and read, atoms that are read again, a page that is
told. The rest grows with its events. On a small plane the first part is nothing, and a leg of a tenth of a second is
mostly events. On a large one it may be half a second; then legs must be longer, or nothing else is done.
"""
import math
from collections import OrderedDict
from dataclasses import dataclass, field

from ..base.limits import MOST_ATTEMPTS
from ..formats.world import World

EVERY = 0.1  # seconds: legs are as long as this by themselves, and none begins sooner behind another
BEARABLE = 1.0  # seconds: legs are made longer for more events up to this
WANTED = 4  # a leg is so many times as long as what it costs without events, so three quarters of it are events
LEAST_WANTED = 2  # the same where that is longer than is bearable: half of it are events
FIRST = 20_000  # attempts of all tiles in the first leg
LEAST_PART = 16  # by themselves, legs have no less than an attempt for so many sites
MOST_SEEN = 4  # so many lengths are remembered
NEWEST = 0.3  # the part of the newest leg in the mean of those of its length
STEADY = 1.4  # a length that is wrong by less than this stays
PROBE = 20  # after so many legs of one length another one is tried
AFRESH = 200  # after so many legs all is learned anew, since planes change


@dataclass
class Tempo:
    """How many attempts each tile makes in a leg, and whether that follows from how long legs take."""

    attempts: int
    least: int  # by itself
    most: int
    by_itself: bool = True
    seen: "OrderedDict[int, float]" = field(default_factory=OrderedDict)  # seconds by attempts; those of late last
    same: int = 0  # how many legs had the same length
    legs: int = 0  # how many were seen since all was learned anew

    @staticmethod
    def of(world: World, last: int) -> "Tempo":
        """The tempo to begin with, on a chain whose last leg made so many attempts; 0 for the first leg."""
        tiles = max(world.tiles - len(world.off), 1)
        most = MOST_ATTEMPTS // tiles
        least = max(world.width * world.height // LEAST_PART, 1)
        first = min(last, FIRST) if last else FIRST
        return Tempo(min(max(first // tiles, least), most), least, most)

    def turn(self, way: str) -> None:
        """Halves (`slower`) or doubles (`faster`) the attempts, leaves them to themselves (`alone`), or as they are (`same`)."""
        self.by_itself = way == "alone"
        if way == "slower":
            self.attempts = max(self.attempts // 2, 1)
        elif way == "faster":
            self.attempts = min(self.attempts * 2, self.most)

    def heed(self, took: float, attempts: int) -> None:
        """Takes note of how many seconds a leg of so many attempts took."""
        before = self.seen.pop(attempts, took)
        self.seen[attempts] = before + NEWEST * (took - before)
        self.legs += 1
        if self.legs > AFRESH:
            self.seen = OrderedDict({attempts: self.seen[attempts]})
            self.legs = 0
        if len(self.seen) > MOST_SEEN:  # the shortest stays: no leg costs more than that without its events
            self.seen.pop(next(length for length in self.seen if length != min(self.seen)))
        if self.by_itself and attempts == self.attempts:
            self.choose(self.seen[attempts])

    def choose(self, took: float) -> None:
        """Takes the length with which the most is done at a rate of frames that one can bear."""
        self.same += 1
        if max(self.seen) < 1.5 * min(self.seen) or self.same > PROBE:  # two costs take two lengths to know
            is_shorter = took > 2 * EVERY and self.attempts >= 2 * self.least
            times = 0.5 if is_shorter or self.attempts == self.most else 2.0
        else:
            times = self.wanted()
            if 1 / STEADY < times < STEADY:
                return
        chosen = min(max(stepped(self.attempts * times), self.least), self.most)
        if chosen != self.attempts:
            self.attempts, self.same = chosen, 0

    def wanted(self) -> float:
        """How many times as long a leg should be, from a half to two."""
        fixed, each = self.costs()
        seconds = max(EVERY, min(WANTED * fixed, max(BEARABLE, LEAST_WANTED * fixed)))
        now = each * self.attempts  # seconds for the events of a leg
        return min(max((seconds - fixed) / now, 0.5), 2.0) if now > 0 else 2.0

    def costs(self) -> tuple[float, float]:
        """How many seconds a leg costs without events, and how many each attempt does: a line through the legs that were seen."""
        count = len(self.seen)
        mean, mean_took = sum(self.seen) / count, sum(self.seen.values()) / count
        spread = sum((attempts - mean) ** 2 for attempts in self.seen)
        together = sum((attempts - mean) * (took - mean_took) for attempts, took in self.seen.items())
        each = min(max(together / spread, 0.0), mean_took / mean)
        return mean_took - each * mean, each


def stepped(attempts: float) -> int:
    """The nearest of lengths of which each is the root of two longer than the one before, so that lengths come again."""
    return round(math.sqrt(2) ** round(2 * math.log2(max(attempts, 1))))
