"""The table of runs on threads in examples/README.md. Such runs differ from call to call, and so does the table."""
import re
from collections import Counter
from collections.abc import Callable

import horde
import life
import membrane
import sorter
import swapline
import wire
from runs import Report, elements, report, span, table, world

# How far the seeds of the runs of an example are apart, and how many runs it has.
APART, RUNS = 10_000, 5
# The elements that an example has in other files.
BESIDE = {"horde": ("regulator",), "swapline": ("stone",)}

Ends = Callable[[list[Report]], str]


def counted(**names: str) -> Ends:
    """How many atoms of some elements there are."""
    return lambda found: ", ".join(f"{span(it.counts()[name] for it in found)} {word}" for word, name in names.items())


def bites(found: list[Report]) -> str:
    """How many bites ants brought to their nest."""
    return f"{span(it.of('Nest')[0].member(0, 10) for it in found)} bites in the nest"


def inside(found: list[Report]) -> str:
    """What a membrane encloses."""
    grains, dust = (span(membrane.inside(it, kind) for it in found) for kind in ("Grain", "Dust"))
    return f"{grains} grains and {dust} dust inside"


def pulses(found: list[Report]) -> str:
    """The pulses of a wire."""
    sent, heard = (span(map(count, found)) for count in (wire.sent, wire.heard))
    return f"{sent} pulses sent, {heard} heard"


def moved(found: list[Report]) -> str:
    """How many lines came to the west and moved all stones rightly."""
    return f"{sum(map(swapline.is_swept, found))} of {len(found)} runs with the line in column 0 and each stone moved by one column"


def sorted_ones(found: list[Report]) -> str:
    """What the tallies of the horde have."""
    return f"{span(map(horde.taken, found))} numbers in the tallies, mean error {span(map(horde.mistake, found), 1)}"


ENDS: dict[str, Ends] = {
    "diffusion": counted(particles="Particle"),
    "regulator": counted(regulators="Regulator", resources="Resource"),
    "sorter": lambda found: f"{span(map(sorter.in_order, found))}% of the pairs in order",
    "fence": counted(posts="Fence"),
    "seasons": counted(bushes="Bush", leaves="Leaf"),
    "life": lambda found: f"{sum(map(life.is_over, found))} of {len(found)} runs finished",
    "swapline": moved,
    "forkbomb": counted(bombs="ForkBomb", antidotes="AntiForkBomb"),
    "wator": counted(fish="Fish", sharks="Shark"),
    "membrane": inside,
    "gradient": counted(**{"sites of the field": "Field"}),
    "wire": pulses,
    "ants": bites,
    "horde": sorted_ones,
}


def poorest(found: Report) -> float:
    """The events of the tile that made fewest, as a part of the mean of all tiles."""
    tiles = Counter(tile for tile, _, _ in found.centres())
    return min(tiles.values()) * len(tiles) / found.events


def row(name: str, runs: int) -> list[str]:
    """The row of an example. Its runs are made one after another, so that none is in another's way."""
    first = int(re.findall(r"(?m)^seed (\d+)$", world(f"{name}-tiles"))[0])
    files = elements(name, *BESIDE.get(name, ()))
    found = [report(world(f"{name}-tiles", seed=first + APART * number), files) for number in range(runs)]
    rates = span((100 * it.events / (it.events + it.abandoned) for it in found), 1)
    return [f"[{name}]({name}.md)", rates, span(map(poorest, found), 2), ENDS[name](found)]


def tables(runs: int = RUNS) -> list[str]:
    """The table."""
    heads = ("Example", "Events, % of attempts", "Poorest tile", "At the end of the runs")
    return [table(heads, [row(name, runs) for name in ENDS])]
