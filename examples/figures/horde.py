"""The tables of examples/horde.md."""
from collections import Counter

from runs import Atom, Report, changed, each, elements, legs, report, seeded, span, table, world

SEEDS = (41000, 51000, 61000, 71000, 81000)
AFTER = (43000, 53000, 63000, 73000, 83000)
MOMENTS = (50_000, 100_000, 200_000, 400_000)
# The attempts of a leg of the chains in which what consumers take in is counted leg by leg, and how many legs there are.
LEG, LEGS = 4_000, 50


def tally(atoms: list[Atom]) -> dict[int, int]:
    """How many numbers the consumer of each row has counted."""
    return {atom.y: atom.member(7, 16) for atom in atoms if atom.name == "Consumer"}


def taken(found: Report) -> int:
    """The sum of the tallies."""
    return sum(tally(found.atoms).values())


def mistake(found: Report) -> float:
    """The mean error of the numbers in the tallies."""
    return sum(atom.member(23, 24) for atom in found.of("Consumer")) / max(taken(found), 1)


def run(name: str, seed: int, attempts: int) -> Report:
    """The report of a run on one tile."""
    return report(world(name, seed=seed, attempts=attempts), elements("horde", "regulator"))


def moment(attempts: int) -> list[object]:
    """A row of the table of moments."""
    found = each(lambda seed: run("horde", seed, attempts), SEEDS)
    return [attempts, span(it.counts()["Sorter"] for it in found), span(map(taken, found)), span(map(mistake, found), 1)]


def gains(seed: int) -> tuple[int, int]:
    """What consumers take in in the legs of the chain with a seed: all numbers, those of consumers that are gone included,
    and what the tallies have at the end."""
    total, before = 0, dict[int, int]()
    for found in legs(world("horde", attempts=LEG, seed=seed), LEGS, elements("horde", "regulator")):
        now = tally(found.atoms)
        total += sum(count - before.get(row, 0) if count >= before.get(row, 0) else count for row, count in now.items())
        before = now
    return total, sum(before.values())


def unregulated(attempts: int) -> list[object]:
    """A row of the table without regulators."""
    bare = "".join(line for line in world("horde").splitlines(True) if " Regulator" not in line)
    found = each(lambda seed: report(changed(bare, seed=seed, attempts=attempts), elements("horde", "regulator")), SEEDS)
    numbers: list[Counter[str]] = [it.counts() for it in found]
    return [attempts, span(it["Number"] for it in numbers), span(map(taken, found)), span(map(mistake, found), 1)]


def damaged(attempts: int) -> list[object]:
    """A row of the table after damage."""
    found = each(lambda seed: run("horde-damaged", seed, attempts), AFTER)
    return [attempts, span(it.counts()["Sorter"] for it in found), span(map(taken, found)),
            span(map(mistake, found), 1) if attempts > 25_000 else ""]


def stepped() -> list[object]:
    """The row of the stepped runs on four tiles."""
    found = each(lambda seed: report(seeded("horde-tiles", seed), elements("horde", "regulator"), "step"), SEEDS)
    return [span(it.events for it in found), span(map(taken, found)), span(map(mistake, found), 1)]


def tables() -> list[str]:
    """All tables of the page."""
    counted = each(gains, SEEDS)
    attempts = LEG * LEGS
    heads = ("Sorters", "Numbers in the tallies", "Mean error")
    return [
        table(("Attempts", *heads), map(moment, MOMENTS)),
        table(("Attempts", "Numbers taken in", "Attempts for each number", "Numbers in the tallies at the end"), [
            (attempts, span(it for it, _ in counted), span(attempts / it for it, _ in counted), span(it for _, it in counted))]),
        table(("Attempts", "Numbers on the plane", "Numbers in the tallies", "Mean error"), map(unregulated, (200_000, 400_000))),
        table(("Attempts after the damage", *heads), map(damaged, (25_000, 50_000, 100_000, 200_000))),
        table(("Events", "Numbers in the tallies", "Mean error"), [stepped()]),
    ]
