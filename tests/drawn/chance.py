"""Chances: what a seed draws. A case is made from its seed alone, so everything in it is drawn from one of these."""
from __future__ import annotations

import random
from typing import Sequence, TypeVar

Item = TypeVar("Item")


class Chance:
    """A row of draws that follows from a seed."""

    def __init__(self, seed: int) -> None:
        self.random = random.Random(f"drawn case {seed}")
        # at which place a rule of names or types is to be broken; most cases have none
        self.slip = 0

    def slipped(self, places: int = 1) -> bool:
        """Whether a rule is to be broken here, where what is here counts as so many places."""
        was = self.slip
        self.slip = max(was - places, 0)
        return was > 0 and self.slip == 0

    def below(self, bound: int) -> int:
        """A number from 0 on, below a bound."""
        return self.random.randrange(bound)

    def between(self, least: int, most: int) -> int:
        """A number from a range with both its ends."""
        return self.random.randint(least, most)

    def one_of(self, items: Sequence[Item]) -> Item:
        """One of some things."""
        return items[self.below(len(items))]

    def happens(self, share: float) -> bool:
        """Whether something comes about that does in such a share of all draws."""
        return self.random.random() < share

    def near_end(self, bits: int) -> int:
        """A number of so many bits, most often near an end: few bits, all of them, one, or all but one."""
        whole = (1 << bits) - 1
        ends = [0, 1, 2, 3, whole, whole - 1, whole >> 1, (whole >> 1) + 1, 1 << self.below(bits)]
        ends.append(whole ^ 1 << self.below(bits))
        return min(self.one_of(ends), whole) if self.happens(0.6) else self.random.getrandbits(bits)
