"""The tables of examples/swapline.md."""
from functools import cache
from pathlib import Path
from tempfile import TemporaryDirectory

from runs import Report, each, elements, report, source, span, table, world

SEEDS = (31000, 41000, 51000, 61000, 71000)
MORE = tuple(range(31000, 422000, 10000))
MOMENTS = (2_000, 4_000, 6_000, 8_000, 10_000, 15_000)
ROWS = 16


def row(moment: int) -> list[object]:
    """A row of the table of the line's way."""
    found = each(lambda seed: report(world("swapline", seed=seed, attempts=moment), elements("swapline", "stone")), SEEDS)
    lines = [[atom.x for atom in it.of("Line")] for it in found]
    missing = [ROWS - len({atom.y for atom in it.of("Line")}) for it in found]
    return [moment, span(map(min, lines)), span(map(max, lines)), span(missing), span(it.counts()["Thorn"] for it in found)]


@cache
def begun() -> set[tuple[int, int]]:
    """Where the stones begin."""
    lines = (line.split() for line in world("swapline").splitlines() if line.startswith("atom "))
    return {(int(words[1]), int(words[2])) for words in lines if words[3] == "Stone"}


def is_swept(found: Report) -> bool:
    """Whether the line is in column 0 and each stone one column further east than it began."""
    stones = {(atom.x, atom.y) for atom in found.of("Stone")}
    return stones == {(x + 1, y) for x, y in begun()} and {(atom.x, atom.y) for atom in found.of("Line")} == {(0, y) for y in range(ROWS)}


def swept(name: str, files: tuple[str, ...]) -> list[object]:
    """A row of the table of the runs that end well."""
    found = each(lambda seed: report(world("swapline", seed=seed), files), MORE)
    return [name, sum(map(is_swept, found)), span(it.counts()["Thorn"] for it in found)]


def tables() -> list[str]:
    """The line on its way, and what its memory is worth."""
    with TemporaryDirectory() as folder:
        forgetful = source("swapline", {"Unsigned(3) column = north;\n    if (southern) column = south;": "Unsigned(3) column = 0;"}, Path(folder))
        ends = [swept("with memory", elements("swapline", "stone")), swept("without", (forgetful, *elements("stone")))]
    return [
        table(("Attempts", "Westernmost column", "Easternmost column", "Rows without an atom of the line", "Thorns left"), map(row, MOMENTS)),
        table(("Line", f"Runs of {len(MORE)} that moved each stone by one column", "Thorns left"), ends),
    ]
