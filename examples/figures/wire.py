"""The table of examples/wire.md."""
from runs import Report, each, elements, report, seeded, span, table, world

SEEDS = (61000, 71000, 81000, 91000, 101000)
# Where `sent` of a clock and `heard` of a bell lie.
SENT, HEARD = (9, 8), (2, 8)


def sent(found: Report) -> int:
    """How many pulses the clock has sent."""
    return found.of("Clock")[0].member(*SENT)


def heard(found: Report) -> int:
    """How many pulses the bell has heard."""
    return found.of("Bell")[0].member(*HEARD)


def row(name: str, found: list[Report]) -> list[object]:
    """A row of the table."""
    events = span(it.events / 256 for it in found)
    return [name, events, span(map(sent, found)), span(map(heard, found)), span(sent(it) - heard(it) for it in found)]


def tables() -> list[str]:
    """The pulses of a run."""
    alone = each(lambda seed: report(world("wire", seed=seed), elements("wire")), SEEDS)
    tiled = each(lambda seed: report(seeded("wire-tiles", seed), elements("wire"), "step"), SEEDS)
    heads = ("Run", "Events per site", "Pulses sent", "Heard", "On their way")
    return [table(heads, [row("one tile", alone), row("four tiles, stepped", tiled)])]
