"""Random numbers: SplitMix64 and Xoshiro256++ (docs/formats.md, "Random numbers")."""
from __future__ import annotations

from typing import Iterator

WORD = 2**64 - 1
STEP = 0x9E3779B97F4A7C15


def mixed(state: int) -> int:
    """The word that SplitMix64 gives from its state."""
    state = (state ^ state >> 30) * 0xBF58476D1CE4E5B9 & WORD
    state = (state ^ state >> 27) * 0x94D049BB133111EB & WORD
    return state ^ state >> 31


def split_mix(seed: int) -> Iterator[int]:
    """The words of SplitMix64 with a seed."""
    while True:
        seed = seed + STEP & WORD
        yield mixed(seed)


def xoshiro(seed: int) -> Iterator[int]:
    """The words of Xoshiro256++, whose state is the first four words of SplitMix64 with the seed."""
    first = split_mix(seed & WORD)
    a, b, c, d = next(first), next(first), next(first), next(first)
    while True:
        turned = a + d & WORD
        yield ((turned << 23 | turned >> 41) + a) & WORD
        c, d, shifted = c ^ a, d ^ b, b << 17 & WORD
        a, b, c, d = a ^ d, b ^ c, c ^ shifted, (d << 45 | d >> 19) & WORD


Attempt = tuple[int, int]


def drawn_attempts(seed: int, tile: int, count: int, sites: int) -> list[Attempt]:
    """What a tile draws: for each attempt its position in the tile's rectangle and the seed of its event."""
    words = xoshiro(seed + tile)
    return [(next(words) % sites, next(words)) for _ in range(count)]
