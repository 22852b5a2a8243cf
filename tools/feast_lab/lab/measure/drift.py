"""How far the tiles of a run were apart: whether a moment of its journal is one age of the whole plane.

The age of a tile at a moment is the part of its own events that it has made by then. Drift is how far a tile was
ahead of the slowest, at the worst moment; it goes from 0, if all tiles keep pace, to 1, if a tile ends before
another begins. A tile that has made all of its events holds nobody back.

Tiles whose attempts are written out may have more of them than others. The age of a tile with half as many
attempts as the one with most goes from 0 to a half, so that tiles that go on side by side have the same age.

At the end of each leg of a chain all tiles have made their attempts, and so have the same age. So each leg is judged by
its own plan and its own events, and weighs as much as its attempts are of those of all legs.
"""
from collections import Counter
from collections.abc import Iterable, Sequence
from dataclasses import dataclass
from heapq import heappop, heapreplace

from ..formats.world import World

MIXED = 0.1  # from this drift on it is said that a moment of the run mixes ages


def plans(world: World) -> list[int]:
    """How many attempts each tile of a world has."""
    if world.attempts is None:
        found = Counter(attempt.tile for attempt in world.tries)
        return [found[tile] for tile in range(world.tiles)]
    return [0 if tile in world.off else world.attempts for tile in range(world.tiles)]


def tiles_of(records: Iterable[str]) -> bytes:
    """The tile of each event, as a byte; the events are lines of a journal."""
    return bytes(int(line.split(" ", 2)[1]) for line in records)


def drifts(planned: Sequence[int], tiles: Sequence[int]) -> list[float]:
    """How far each tile was ahead of the slowest, from the plans of all tiles and the tile of each event in order.

    A tile without events is never ahead, and nobody is ahead of it.
    """
    if len(planned) == 1:
        return [0.0]
    made, events, most = [0] * len(planned), Counter(tiles), max(planned) or 1
    each = [plan / most / max(events[tile], 1) for tile, plan in enumerate(planned)]
    # the tiles that aren't done, each with its age or an earlier one of its ages; the first has its age of now
    slowest = sorted((0.0, tile) for tile in events) + [(1.0, len(planned))]
    ahead = [0.0] * len(planned)
    for tile in tiles:
        made[tile] += 1
        if tile == slowest[0][1]:
            renew(slowest, made, each, events)
        lead = made[tile] * each[tile] - slowest[0][0]
        if lead > ahead[tile]:
            ahead[tile] = lead
    return ahead


def renew(slowest: list[tuple[float, int]], made: Sequence[int], each: Sequence[float], events: Counter[int]) -> None:
    """Brings the ages of a heap up to date, until that of its first tile is."""
    while True:
        age, tile = slowest[0]
        if tile == len(made):
            return
        if made[tile] == events[tile]:
            heappop(slowest)
        elif made[tile] * each[tile] == age:
            return
        else:
            heapreplace(slowest, (made[tile] * each[tile], tile))


@dataclass(frozen=True)
class LegDrift:
    """How far each tile was ahead of the slowest in a leg, and the longest of the plans, by which the leg weighs."""

    longest: int
    ahead: list[float]

    @staticmethod
    def of(planned: Sequence[int], tiles: Sequence[int]) -> "LegDrift":
        """That of a leg, from its plans and its events."""
        return LegDrift(max(planned), drifts(planned, tiles))

    @staticmethod
    def together(legs: Sequence["LegDrift"]) -> list[float]:
        """How far each tile was ahead of the slowest in legs that follow one another."""
        whole = sum(leg.longest for leg in legs) or 1
        return [max(column) for column in zip(*([it * (leg.longest / whole) for it in leg.ahead] for leg in legs), strict=True)]


def of_legs(legs: Sequence[tuple[Sequence[int], Sequence[int]]]) -> list[float]:
    """How far each tile was ahead of the slowest in legs that follow one another, each with its plans and its events."""
    return LegDrift.together([LegDrift.of(planned, tiles) for planned, tiles in legs])


def greatest(planned: Sequence[int], tiles: Sequence[int]) -> float:
    """The drift of a run: how far its tiles were apart at the worst moment."""
    return max(drifts(planned, tiles))


def warning(drift: float) -> str:
    """What is said of a run whose moments mix ages."""
    return (f"the tiles did not keep pace: at one moment a tile was {100 * drift:.0f} % of its events ahead of another, "
            "so a moment of this run mixes ages")
