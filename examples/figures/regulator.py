"""The tables of examples/regulator.md."""
from collections import Counter

from runs import each, elements, report, seeded, span, table, world

SEEDS = (3000, 13000, 23000, 33000, 43000)
MOMENTS = (2_500, 10_000, 40_000, 160_000, 320_000, 640_000, 1_000_000)
KINDS = ("Regulator", "Resource")


def counts(moment: int) -> list[str]:
    """The ranges of both numbers at a moment, over the seeds."""
    texts = [world("regulator", seed=seed, attempts=moment) for seed in SEEDS]
    found: list[Counter[str]] = each(lambda text: report(text, elements("regulator")).counts(), texts)
    return [span(it[kind] for it in found) for kind in KINDS]


def tiles() -> list[str]:
    """The same after a stepped run on four tiles, with the part of the attempts that became events."""
    found = each(lambda seed: report(seeded("regulator-tiles", seed), elements("regulator"), "step"), SEEDS)
    rates = span(100 * it.events / (it.events + it.abandoned) for it in found)
    return [f"{rates}%", *(span(it.counts()[kind] for it in found) for kind in KINDS)]


def tables() -> list[str]:
    """Both tables."""
    return [
        table(("Attempts", "Regulators", "Resources"), [(moment, *counts(moment)) for moment in MOMENTS]),
        table(("Attempts that became events", "Regulators", "Resources"), [tiles()]),
    ]
