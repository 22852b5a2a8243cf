"""The table of examples/life.md."""
from runs import Report, each, elements, first, report, seeded, span, table, world

SEEDS = (21000, 31000, 41000, 51000, 61000)
SITES, END = 256, 24


def is_over(found: Report) -> bool:
    """Whether each site has a cell of the last generation."""
    return len(found.atoms) == SITES and all(atom.member(2, 8) == END for atom in found.atoms)


def one_tile(seed: int) -> int:
    """How many attempts a run on one tile needs until it is over, by thousands."""
    needed = first(lambda attempts: is_over(report(world("life", seed=seed, attempts=attempts), elements("life"))), 1_000, 32_000)
    return needed or 0


def stepped(seed: int) -> tuple[int, int]:
    """How many attempts of each tile a stepped run needs until it is over, by five thousands, and its events then."""
    events = {}

    def holds(attempts: int) -> bool:
        found = report(seeded("life-tiles", seed, attempts=attempts), elements("life"), "step")
        events[attempts] = found.events
        return is_over(found)
    needed = first(holds, 5_000, 80_000) or 0
    return needed, events[needed]


def tables() -> list[str]:
    """How long it takes."""
    alone, tiled = each(one_tile, SEEDS), each(stepped, SEEDS)
    return [table(("Run", "Attempts of each tile until it is finished", "Events per site until then"), [
        ("one tile", span(alone), span(it / SITES for it in alone)),
        ("four tiles, stepped", span(it for it, _ in tiled), span(events / SITES for _, events in tiled)),
    ])]
