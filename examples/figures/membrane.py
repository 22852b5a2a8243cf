"""The tables of examples/membrane.md."""
from pathlib import Path
from statistics import mean
from tempfile import TemporaryDirectory

from runs import Report, each, elements, report, source, span, table, world

SEEDS = (71000, 81000, 91000, 101000, 111000)
SIDE = 16
MOMENTS = range(0, 100_001, 10_000)
SHOWN = (0, 10_000, 20_000, 40_000, 60_000, 80_000, 100_000)


def outside(found: Report) -> set[tuple[int, int]]:
    """The sites that a flood from beyond the border reaches by sides, without the line's."""
    line = {(atom.x, atom.y) for atom in found.of("Membrane")}
    edge, seen = [(-1, -1)], {(-1, -1)}
    while edge:
        x, y = edge.pop()
        for site in ((x - 1, y), (x + 1, y), (x, y - 1), (x, y + 1)):
            if site not in seen and site not in line and all(-1 <= part <= SIDE for part in site):
                seen.add(site)
                edge.append(site)
    return {(x, y) for x, y in seen if 0 <= x < SIDE and 0 <= y < SIDE}


def area(found: Report) -> int:
    """How many sites the line encloses."""
    return SIDE * SIDE - len(outside(found)) - len(found.of("Membrane"))


def inside(found: Report, name: str) -> int:
    """How many atoms of an element the line encloses."""
    reached = outside(found)
    return sum((atom.x, atom.y) not in reached for atom in found.of(name))


def reports(moment: int, files: tuple[str, ...]) -> list[Report]:
    """The planes of all seeds at a moment."""
    return each(lambda seed: report(world("membrane", seed=seed, attempts=moment), files), SEEDS)


def row(name: object, found: list[Report]) -> list[object]:
    """A row of a table."""
    return [name, span(map(area, found)), *(span(inside(it, kind) for it in found) for kind in ("Grain", "Dust"))]


def tables() -> list[str]:
    """What is inside, with care and without."""
    heads = ("Attempts", "Sites inside", "Grains inside", "Dust inside")
    with TemporaryDirectory() as folder:
        careless = (source("membrane", {"careful = true": "careful = false"}, Path(folder)),)
        without = reports(MOMENTS[-1], careless)
    moments = {moment: reports(moment, elements("membrane")) for moment in MOMENTS}
    areas = [mean(area(plane) for plane in run) for run in zip(*moments.values())]
    return [
        table(heads, [row(moment, moments[moment]) for moment in SHOWN]),
        table(("After every 10,000th attempt", "Sites inside"), [
            ("least and greatest", span(area(plane) for planes in moments.values() for plane in planes)),
            ("mean of a run", span(areas, 1))]),
        table(("Without care, " + heads[0].lower(), *heads[1:]), [row(MOMENTS[-1], without)]),
    ]
