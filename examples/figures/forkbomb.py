"""The tables of examples/forkbomb.md."""
from pathlib import Path
from statistics import mean
from tempfile import TemporaryDirectory

from runs import each, elements, report, source, span, table, world

SEEDS = tuple(range(51000, 142000, 10000))
MOMENTS = (0, 2_000, 4_000, 6_000, 8_000, 10_000, 12_000, 14_000, 16_000, 20_000, 30_000, 40_000)
KINDS = ("ForkBomb", "AntiForkBomb")


def counts(moment: int, files: tuple[str, ...]) -> list[tuple[int, int]]:
    """The bombs and the antidotes of each seed at a moment."""
    found = each(lambda seed: report(world("forkbomb", seed=seed, attempts=moment), files).counts(), SEEDS)
    return [(it[KINDS[0]], it[KINDS[1]]) for it in found]


def patient(patience: int) -> list[object]:
    """A row of the table of patience."""
    with TemporaryDirectory() as folder:
        files = (source("forkbomb", {"patience = 10;": f"patience = {patience};"}, Path(folder)),)
        early, late = counts(16_000, files), counts(20_000, files)
    bombs = [sum(bombs > 0 for bombs, _ in found) for found in (early, late)]
    return [patience, *bombs, f"{mean(antidotes for _, antidotes in late):.1f}"]


def tables() -> list[str]:
    """Both numbers over time, and what patience changes."""
    moments = [(moment, counts(moment, elements("forkbomb"))) for moment in MOMENTS]
    return [
        table(("Attempts", "Fork bombs", "Antidotes"),
              [(moment, span(it for it, _ in found), span(it for _, it in found)) for moment, found in moments]),
        table(("`patience`", "Runs with bombs after 16,000 attempts", "After 20,000", "Antidotes after 20,000, on average"),
              map(patient, (1, 2, 5, 10))),
    ]
