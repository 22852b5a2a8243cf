"""Runs: of one tile, stepped on several, and replays of a journal.

A stepped run has one plane and no copies: a tile changes sites only while it has the edges to all
neighbours that hold one of them, so what it reads is what stands there.
"""
from collections.abc import Iterator
from dataclasses import dataclass, field
from typing import NamedTuple

from draws import drawn_order
from plane import Attempt, Plane, World
from window import REACH, Elements, act


class Record(NamedTuple):
    """An event that took place."""

    stamp: int
    tile: int
    number: int
    attempt: Attempt


class Loss(NamedTuple):
    """An attempt that was abandoned: the edge, and the tile and the attempt that held it."""

    tile: int
    number: int
    attempt: Attempt
    edge: int
    holder: int
    holder_number: int


@dataclass
class Report:
    """What a run leaves."""

    plane: Plane
    records: list[Record] = field(default_factory=list)
    losses: list[Loss] = field(default_factory=list)

    def text(self) -> str:
        """The report as the program writes it."""
        events = [f"{it.stamp} {it.tile} {it.number} {it.attempt.x} {it.attempt.y} {it.attempt.seed:016x}\n"
                  for it in sorted(self.records)]
        losses = [f"{it.tile} {it.number} {it.attempt.x} {it.attempt.y} {it.edge} {it.holder} {it.holder_number}\n"
                  for it in sorted(self.losses)]
        return (f"feast 1\n{self.plane.text()}journal {len(events)}\n{''.join(events)}"
                f"abandoned {len(losses)}\n{''.join(losses)}")


class SteppedMachine:
    """The tiles of a world, of which one after another makes a step."""

    def __init__(self, world: World, elements: Elements) -> None:
        self.world, self.elements = world, elements
        self.report = Report(world.plane())
        tiles = range(world.count)
        pairs = [(one, other) for one in tiles for other in tiles if one < other and self.are_neighbours(one, other)]
        self.edges = {pair: number for number, pair in enumerate(pairs)}
        self.holders: list[tuple[int, int] | None] = [None] * len(pairs)
        self.clocks = [0] * len(pairs)
        self.last_stamps = [0] * world.count

    def are_neighbours(self, one: int, other: int) -> bool:
        """Whether two tiles touch, diagonally too."""
        columns = self.world.tiles[0]
        return abs(one % columns - other % columns) <= 1 and abs(one // columns - other // columns) <= 1

    def needed(self, tile: int, attempt: Attempt) -> list[int]:
        """The edges to the tiles that hold a site of the attempt's window, in rising order."""
        found = []
        for pair, edge in self.edges.items():
            if tile in pair:
                left, top = self.world.corner(pair[0] + pair[1] - tile)
                columns = max(left - REACH - attempt.x, attempt.x - (left + self.world.size[0] - 1 + REACH), 0)
                rows = max(top - REACH - attempt.y, attempt.y - (top + self.world.size[1] - 1 + REACH), 0)
                if columns + rows <= REACH:
                    found.append(edge)
        return found

    def day(self, tile: int) -> Iterator[None]:
        """The steps of a tile."""
        for number, attempt in enumerate(self.world.attempts_of(tile)):
            needed = self.needed(tile, attempt)
            yield
            taken: list[int] = []
            for edge in needed:
                holder = self.holders[edge]
                if holder is not None:
                    self.report.losses.append(Loss(tile, number, attempt, edge, *holder))
                    yield
                    break
                self.holders[edge] = (tile, number)
                taken.append(edge)
                yield
            else:
                yield from self.event(tile, number, attempt, needed)
            for edge in taken:
                self.holders[edge] = None
                yield

    def event(self, tile: int, number: int, attempt: Attempt, needed: list[int]) -> Iterator[None]:
        """The three steps of an event whose edges the tile has: it reads, acts and writes."""
        yield
        yield
        stamp = 1 + max([self.last_stamps[tile], *(self.clocks[edge] for edge in needed)])
        self.last_stamps[tile] = stamp
        for edge in needed:
            self.clocks[edge] = stamp
        act(self.report.plane, attempt, self.elements)
        self.report.records.append(Record(stamp, tile, number, attempt))
        yield

    def run(self, order: Iterator[int]) -> Report:
        """The steps of an order of tiles, and then those that are left of each tile."""
        days = [self.day(tile) for tile in range(self.world.count)]
        for tile in order:
            next(days[tile], None)
        for day in days:
            for _ in day:
                pass
        return self.report


def stepped(world: World, elements: Elements) -> Report:
    """The stepped run of a world."""
    attempts = world.attempts * world.count
    order = iter(()) if world.order_seed is None else drawn_order(world.order_seed, world.count, attempts)
    return SteppedMachine(world, elements).run(order)


def of_one_tile(world: World, elements: Elements) -> Report:
    """The run of a world of one tile: its attempts, one after another."""
    report = Report(world.plane())
    for number, attempt in enumerate(world.attempts_of(0)):
        act(report.plane, attempt, elements)
        report.records.append(Record(number + 1, 0, number, attempt))
    return report


def journal_of(text: str) -> Iterator[Attempt]:
    """The events of a report, in the order of its journal."""
    lines = text.splitlines()
    start = next(number for number, line in enumerate(lines) if line.startswith("journal "))
    for line in lines[start + 1:start + 1 + int(lines[start].split()[1])]:
        _, _, _, x, y, seed = line.split()
        yield Attempt(int(x), int(y), int(seed, 16))


def atoms_of(text: str) -> str:
    """The rows of atoms of a report, with the line that counts them."""
    return text[len("feast 1\n"):text.index("journal ")]
