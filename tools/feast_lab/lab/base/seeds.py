"""Seeds of which no two runs share one.

Tile t of a world draws its attempts from the world's seed + t. So runs that follow one another, or repeat one another, take
seeds that are two more than the number of tiles apart: seed, seed + tiles + 2, seed + 2 * (tiles + 2) .. modulo 2^64, as
the program does for the legs of a chain. Of the two numbers between, seed + tiles draws the order of a stepped run, and
seed + tiles + 1 what acts draw before a leg.
"""
MODULUS = 1 << 64


def nth(base: int, tiles: int, turn: int) -> int:
    """The seed of the run of that number, counted from 0."""
    return (base + turn * (tiles + 2)) % MODULUS


def of_order(seed: int, tiles: int) -> int:
    """The seed of the order of a stepped run."""
    return (seed + tiles) % MODULUS
