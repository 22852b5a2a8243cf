"""The pace of a live chain by itself: on planes whose legs cost more or less whatever their length, most is done that can be."""
import random
import unittest
from collections.abc import Callable
from dataclasses import dataclass
from itertools import product

from feast_lab.lab.live.pace import EVERY, FIRST, Tempo

SECONDS = 240.0  # for so long a chain is played; the second half counts
MOST = 1_000_000
# What a leg costs in seconds, whatever its length, and what an attempt of it does. The last is that of a search for failures.
PLANES = [(0.004, 3e-6), (0.02, 1e-6), (0.05, 1e-6), (0.15, 1e-6), (0.3, 4e-7), (0.5, 4e-7), (2.0, 2e-6), (0.01, 1e-3)]
LEAST = (16, 16_384)  # of the smallest plane, and of the largest
BEARABLE = 1.0  # a frame a second can be borne
PART = 0.65  # of what the best length would do


@dataclass(frozen=True)
class Played:
    """What came of a chain that was played: attempts a second, and frames a second."""

    attempts: float
    frames: float


def played(fixed: Callable[[float], float], cost: float, noise: float, least: int = 16) -> Played:
    """Plays a chain whose legs cost so much at each moment, more or less by a part."""
    draw = random.Random(f"{cost} {noise}")
    tempo, now, attempts, frames = Tempo(FIRST, least, MOST), 0.0, 0, 0
    while now < SECONDS:
        length = tempo.attempts
        took = (fixed(now) + cost * length) * (1 + noise * draw.uniform(-1, 1))
        tempo.heed(took, length)
        now += max(took, EVERY)
        if now > SECONDS / 2:
            attempts, frames = attempts + length, frames + 1
    return Played(2 * attempts / SECONDS, 2 * frames / SECONDS)


def best(fixed: float, cost: float) -> float:
    """The most attempts a second at a rate of frames that can be borne; where half a leg costs more than that, it is that."""
    length = min((max(BEARABLE, 2 * fixed) - fixed) / cost, MOST)
    return length / max(fixed + cost * length, EVERY)


class Pace(unittest.TestCase):
    """The pace by itself."""

    def test_planes(self) -> None:
        """On each plane most of what can be is done, at a rate of frames that can be borne, also beside other work."""
        for (fixed, cost), noise, least in product(PLANES, (0.0, 0.1, 0.3), LEAST):
            if cost * least > EVERY:
                continue
            found = played(lambda _now, it=fixed: it, cost, noise, least)  # type: ignore[misc]
            self.assertGreater(found.attempts, PART * best(fixed, cost), (fixed, cost, noise, least, found))
            self.assertGreater(found.frames, 0.8 / max(BEARABLE, 2 * fixed), (fixed, cost, noise, least, found))

    def test_change(self) -> None:
        """A plane that comes to cost more, or less, gets longer or shorter legs."""
        for early, late in ((0.01, 0.4), (0.4, 0.01)):
            found = played(lambda now, early=early, late=late: early if now < SECONDS / 3 else late, 1e-6, 0.1)  # type: ignore[misc]
            self.assertGreater(found.attempts, PART * best(late, 1e-6), (early, late, found))
            self.assertGreater(found.frames, 0.8 / BEARABLE, (early, late, found))

    def test_by_hand(self) -> None:
        """A length that was chosen by hand stays."""
        tempo = Tempo(1000, 16, MOST)
        tempo.turn("faster")
        for _ in range(500):
            tempo.heed(5.0, 2000)
        self.assertEqual(tempo.attempts, 2000)
        tempo.turn("alone")
        tempo.heed(5.0, 2000)
        self.assertLess(tempo.attempts, 2000)
