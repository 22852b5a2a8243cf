"""The tables of examples/wator.md."""
from collections import Counter
from pathlib import Path
from statistics import correlation
from tempfile import TemporaryDirectory

from runs import each, elements, first, legs, report, source, span, table, world

SEEDS = (61000, 71000, 81000, 91000, 101000)
# The attempts of a leg of the chains in which animals are counted, how many legs there are, and how many are left out at the start.
LEG, LEGS, BEGUN = 5_000, 80, 4
# Constants with which the waves are higher, and up to how many attempts of them is looked at.
HIGHER = {"breeding = 3;": "breeding = 4;", "breeding = 10;": "breeding = 12;", "starving = 4;": "starving = 8;"}
STEP, MOST = 20_000, 400_000


def course(seed: int) -> list[Counter[str]]:
    """The numbers of both kinds after each leg of the chain with a seed."""
    found = legs(world("wator", attempts=LEG, seed=seed), LEGS, elements("wator"))
    return [it.counts() for it in found[BEGUN:]]


def alike(first_row: list[int], second_row: list[int], behind: int) -> float:
    """The correlation of one row with another so many legs later."""
    return correlation(first_row[:len(first_row) - behind], second_row[behind:])


def period(row: list[int]) -> int:
    """After how many legs a row is most like itself again: the first peak of its correlation behind the first valley."""
    found = [alike(row, row, behind) for behind in range(len(row) // 2)]
    valley = next(at for at in range(1, len(found)) if found[at + 1] > found[at])
    return next(at for at in range(valley + 1, len(found)) if found[at + 1] < found[at])


def delay(fish: list[int], sharks: list[int]) -> int:
    """How many legs the sharks follow the fish behind: where their correlation is greatest."""
    return max(range(10), key=lambda behind: alike(fish, sharks, behind))


def waves(seed: int) -> list[object]:
    """A row of the table of waves."""
    counts = course(seed)
    fish, sharks = [it["Fish"] for it in counts], [it["Shark"] for it in counts]
    wave = period(fish)
    return [str(seed), span(fish), span(sharks), LEG * wave, f"{alike(fish, fish, wave):.2f}", LEG * delay(fish, sharks)]


def at_end(seed: int) -> Counter[str]:
    """The numbers after the longest run."""
    return report(world("wator", seed=seed, attempts=1_000_000), elements("wator")).counts()


def gone(seed: int, files: tuple[str, ...]) -> int | None:
    """After how many attempts no shark is left, by steps; None if some are at the end."""
    return first(lambda attempts: not report(world("wator", seed=seed, attempts=attempts), files).of("Shark"), STEP, MOST)


def tables() -> list[str]:
    """The waves of each seed, who is left in the end, and when sharks die out with other constants."""
    ends = each(at_end, SEEDS)
    with TemporaryDirectory() as folder:
        files = (source("wator", HIGHER, Path(folder)),)
        lost = each(lambda seed: gone(seed, files), SEEDS)
    return [
        table(("Seed", "Fish", "Sharks", "Attempts from wave to wave", "Correlation", "Sharks behind the fish"), each(waves, SEEDS)),
        table(("Attempts", "Fish", "Sharks"), [(1_000_000, span(it["Fish"] for it in ends), span(it["Shark"] for it in ends))]),
        table(("Runs without sharks at the end", "Sharks gone after attempts"), [
            (f"{sum(it is not None for it in lost)} of {len(SEEDS)}", span(it for it in lost if it is not None))]),
    ]
