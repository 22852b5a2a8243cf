"""The table of examples/sorter.md."""
from itertools import combinations
from statistics import mean

from runs import Report, each, elements, report, span, table, world

SEEDS = (5000, 15000, 25000, 35000, 45000)
MOMENTS = (0, 10_000, 40_000, 160_000, 640_000)


def column(found: Report) -> float:
    """The mean column of the numbers."""
    return mean(atom.x for atom in found.of("Number"))


def in_order(found: Report) -> float:
    """Of the pairs of numbers in different rows, the part whose smaller one is in the north, in percent."""
    pairs = [(a, b) for a, b in combinations(found.of("Number"), 2) if a.y != b.y]
    right = [(a.y < b.y) == (a.member(0, 7) < b.member(0, 7)) for a, b in pairs]
    return 100 * sum(right) / len(right)


def row(moment: int) -> list[object]:
    """A row of the table."""
    texts = [world("sorter", seed=seed, attempts=moment) for seed in SEEDS]
    found = each(lambda text: report(text, elements("sorter")), texts)
    return [moment, span(map(column, found), 1), span(map(in_order, found)) + "%"]


def tables() -> list[str]:
    """The table."""
    return [table(("Attempts", "Mean column", "Pairs in order"), map(row, MOMENTS))]
