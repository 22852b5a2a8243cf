"""How many events and abandoned attempts each site of a run had, and how far each tile was ahead."""
from collections.abc import Iterable, Iterator, Sequence
from dataclasses import dataclass
from functools import cached_property
from operator import add
from pathlib import Path

from ..base.errors import LabError
from ..formats.report import Report
from ..formats.world import World
from .drift import of_legs, plans, tiles_of


@dataclass(frozen=True)
class Rates:
    """For each site, numbered row by row, how many events and how many abandoned attempts it had.

    `legs` has for each run its plans, and the tile of each event in their order, as a byte.
    """

    world: World
    events: list[int]
    abandoned: list[int]
    legs: list[tuple[list[int], bytes]]

    @staticmethod
    def of(world_path: Path, report_path: Path) -> "Rates":
        """The rates of a run. Refuses a report whose sites or numbers of attempts aren't those of the world."""
        return Rates.of_run(World.read(world_path), Report.read(report_path), str(world_path), str(report_path))

    @staticmethod
    def of_run(world: World, report: Report, world_name: str, report_name: str) -> "Rates":
        """The rates of a run whose world and report are read, and have these names."""
        events, abandoned = len(report.journal), len(report.abandoned)
        attempts = len(world.tries)
        if world.attempts is not None:
            attempts = world.attempts * (world.tiles - len(world.off))
        if events + abandoned != attempts:
            raise LabError(f"{report_name}: it has {events} events and {abandoned} abandoned attempts, "
                           f"but {world_name} has {attempts} attempts")
        first = len(report.atoms) + 4  # the line of the first event
        made = ((tile, x, y) for _, tile, _, x, y, _ in map(fields, report.journal.lines))
        given_up = ((tile, x, y) for tile, _, x, y, *_ in map(fields, report.abandoned.lines))
        return Rates(world, counts(world, report_name, first, made),
                     counts(world, report_name, first + events + 1, given_up), [(plans(world), tiles_of(report.journal.lines))])

    @staticmethod
    def of_all(found: Iterable["Rates"]) -> "Rates":
        """The rates of several runs on one plane, together; there is at least one."""
        runs = iter(found)
        first = next(runs)
        events, abandoned, legs = first.events, first.abandoned, list(first.legs)
        for it in runs:
            events, abandoned = list(map(add, events, it.events)), list(map(add, abandoned, it.abandoned))
            legs += it.legs
        return Rates(first.world, events, abandoned, legs)

    @cached_property
    def drift(self) -> list[float]:
        """For each tile how far it was ahead of the slowest."""
        return of_legs(self.legs)

    def live(self) -> list[int]:
        """The sites whose tile is on, row by row."""
        return sorted(site for tile in self.tiles() for site in self.sites_of(tile))

    def sites_of(self, tile: int) -> Iterator[int]:
        """The sites that a tile owns."""
        across, down = tile % self.world.tiles_x * self.world.width, tile // self.world.tiles_x * self.world.height
        for y in range(down, down + self.world.height):
            yield from range(y * self.world.columns + across, y * self.world.columns + across + self.world.width)

    def tiles(self) -> list[int]:
        """The tiles that are on."""
        return [tile for tile in range(self.world.tiles) if tile not in self.world.off]


def fields(line: str) -> list[str]:
    """The fields of a line."""
    return line.split(" ")


def counts(world: World, name: str, first: int, entries: Iterable[tuple[str, str, str]]) -> list[int]:
    """How many entries each site has; an entry is its tile and its site, and the first is in a line of the file."""
    found = [0] * (world.columns * world.rows)
    for number, (tile, x, y) in enumerate(entries, first):
        column, row = int(x), int(y)
        if column >= world.columns or row >= world.rows or world.tile_at(column, row) != int(tile):
            raise LabError(f"{name}:{number}: tile {tile} of the world has no site in column {x} of row {y}")
        found[row * world.columns + column] += 1
    return found


def site_rows(rates: Rates) -> Iterator[Sequence[object]]:
    """A head and a row for each live site, row by row of the plane."""
    yield "x", "y", "tile", "events", "abandoned"
    for site in rates.live():
        y, x = divmod(site, rates.world.columns)
        yield x, y, rates.world.tile_at(x, y), rates.events[site], rates.abandoned[site]


def tile_rows(rates: Rates) -> Iterator[Sequence[object]]:
    """A head and a row for each tile that is on."""
    yield ("tile", "sites", *(f"{what}_{name}" for what in ("events", "abandoned")
                              for name in ("sum", "least", "mean", "greatest")), "drift")
    for tile in rates.tiles():
        sites = list(rates.sites_of(tile))
        columns = [[of[site] for site in sites] for of in (rates.events, rates.abandoned)]
        yield tile, len(sites), *(number for column in columns for number in
                                  (sum(column), min(column), f"{sum(column) / len(sites):.4f}", max(column))), \
            f"{rates.drift[tile]:.4f}"
