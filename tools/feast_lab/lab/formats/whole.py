"""Whole reports of legs, made again from short ones: what those lack are the sites and seeds of attempts, which the world draws."""
from collections.abc import Collection, Iterator, Mapping, Sequence

from ..base.draws import words
from ..base.seeds import MODULUS
from .leg_report import LegReport
from .world import World

Attempt = tuple[str, int]  # the site `X Y` and the seed of an attempt


class Drawn:
    """What tiles of a leg's world draw: those that are asked for, or all, and so many attempts, or all."""

    def __init__(self, world: World, tiles: Collection[int] | None = None, most: int | None = None) -> None:
        self.world = world
        each = world.attempts or 0 if most is None else most
        wanted = [tile for tile in range(world.tiles) if tile not in world.off and (tiles is None or tile in tiles)]
        drawn = words([((world.seed or 0) + tile) % MODULUS for tile in wanted], 2 * each) if wanted else []
        self.words = dict(zip(wanted, drawn, strict=True))
        self.sites: Mapping[int, Sequence[str]] = {tile: self.sites_of(tile) for tile in wanted}

    @staticmethod
    def given_up(world: World, report: LegReport) -> list[tuple[str, int, str]]:
        """The attempts that were abandoned in a leg of this world: tile, number and site `X Y`."""
        lost = [(tile, int(attempt)) for tile, attempt, *_ in (line.split(" ", 2) for line in report.abandoned_lines)]
        if not lost:
            return []
        drawn = Drawn(world, {int(tile) for tile, _ in lost}, max(attempt for _, attempt in lost) + 1)
        return [(tile, attempt, drawn.attempt(int(tile), attempt)[0]) for tile, attempt in lost]

    def sites_of(self, tile: int) -> list[str]:
        """The sites of a tile, row by row."""
        world = self.world
        across, down = tile % world.tiles_x * world.width, tile // world.tiles_x * world.height
        return [f"{across + x} {down + y}" for y in range(world.height) for x in range(world.width)]

    def attempt(self, tile: int, number: int) -> Attempt:
        """An attempt of a tile."""
        stream, sites = self.words[tile], self.sites[tile]
        return sites[stream[2 * number] % len(sites)], stream[2 * number + 1]


def whole_report(report: LegReport, world: World) -> bytes:
    """The whole report of a leg, of which this is the short one and the world that of the leg. Raises ValueError or LookupError
    if it is that of another."""
    drawn = Drawn(world)
    events, lost = report.journal_lines, report.abandoned_lines
    lines = [f"journal {len(events)}", *whole_events(events, drawn), f"abandoned {len(lost)}", *whole_abandoned(lost, drawn)]
    return report.atoms.encode() + "".join(f"{line}\n" for line in lines).encode()


def whole_events(lines: Sequence[str], drawn: Drawn) -> Iterator[str]:
    """The lines of events, with site and seed."""
    for line in lines:
        _, tile, attempt = line.split(" ")
        site, seed = drawn.attempt(int(tile), int(attempt))
        yield f"{line} {site} {seed:016x}"


def whole_abandoned(lines: Sequence[str], drawn: Drawn) -> Iterator[str]:
    """The lines of abandoned attempts, with their sites."""
    for line in lines:
        tile, attempt, rest = line.split(" ", 2)
        yield f"{tile} {attempt} {drawn.attempt(int(tile), int(attempt))[0]} {rest}"
