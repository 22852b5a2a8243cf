"""The generators of random words, and what a world draws from them."""
from collections.abc import Iterator

MASK = (1 << 64) - 1


def rotated(word: int, by: int) -> int:
    """A word of 64 bits, rotated to the left."""
    return (word << by | word >> (64 - by)) & MASK


class SplitMix64:
    """The generator of an event's random numbers, and of the state of the other one."""

    def __init__(self, seed: int) -> None:
        self.state = seed & MASK

    def word(self) -> int:
        """The next word."""
        self.state = (self.state + 0x9E3779B97F4A7C15) & MASK
        mixed = self.state
        mixed = (mixed ^ mixed >> 30) * 0xBF58476D1CE4E5B9 & MASK
        mixed = (mixed ^ mixed >> 27) * 0x94D049BB133111EB & MASK
        return mixed ^ mixed >> 31


class Xoshiro256:
    """Xoshiro256++, the generator of attempts and of orders."""

    def __init__(self, seed: int) -> None:
        words = SplitMix64(seed)
        self.state = [words.word() for _ in range(4)]

    def word(self) -> int:
        """The next word."""
        first, second, third, fourth = self.state
        result = (rotated((first + fourth) & MASK, 23) + first) & MASK
        shifted = second << 17 & MASK
        third ^= first
        fourth ^= second
        self.state = [first ^ fourth, second ^ third, third ^ shifted, rotated(fourth, 45)]
        return result


def drawn_attempts(seed: int, sites: int, count: int) -> Iterator[tuple[int, int]]:
    """So many attempts of a tile: the place of the centre in the tile, and the event's seed."""
    stream = Xoshiro256(seed)
    for _ in range(count):
        yield stream.word() % sites, stream.word()


def drawn_order(seed: int, tiles: int, attempts: int) -> Iterator[int]:
    """The tiles that step one after another: sixteen for each attempt of all tiles."""
    stream = Xoshiro256(seed)
    for _ in range(16 * attempts):
        yield stream.word() % tiles
