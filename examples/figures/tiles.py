"""The tables of docs/tutorial-tiles.md, and some of its sentences with numbers."""
import csv
import subprocess
from collections import Counter
from collections.abc import Iterator
from pathlib import Path
from statistics import mean, stdev
from tempfile import TemporaryDirectory

from runs import EXAMPLES, Report, each, elements, report, span, table, world

# The sides of tiles with the attempts of each tile, and the part of their sites that needs an edge.
SIZES = ((8, 20_000, "all"), (16, 80_000, "3 of 4"), (64, 250_000, "15 of 64"))
SEEDS = (5000, 15000, 25000)
MORE = tuple(range(1000, 11000, 1000))
CORNERS = ("north-west", "north-east", "south-west", "south-east")
# The runs over a border, the column in which walkers begin, and the columns beside the border.
WALKS, BEGIN, BESIDE = tuple(range(1000, 10_000_000, 1_000_000)), 240, range(248, 264)
# When half of the plane is cleared, from when on it had settled, and the moments that are shown, since then.
DAMAGE, SETTLED = 400_000, 40_000
SINCE = (0, 20_000, 40_000, 80_000, 280_000, 400_000)


def made(side: int, attempts: int, seed: int = 5000) -> Report:
    """A stepped run of the rumour on four tiles of a size."""
    text = world("tutorial/rumour", size=f"{side} {side}", attempts=attempts, seed=seed)
    return report(text, elements("tutorial/rumour"), "step")


def knowing(found: Report) -> int:
    """How many gossips know the rumour."""
    return sum(atom.member(7, 1) for atom in found.atoms)


def rate(side: int, attempts: int, part: str) -> list[object]:
    """A row of the table of rates."""
    found = each(lambda seed: made(side, attempts, seed), SEEDS)
    return [f"`{side} {side}`", part, attempts, span(100 * it.events / (it.events + it.abandoned) for it in found)]


def corners() -> Iterator[list[object]]:
    """The rows of the table of tiles: the events of a tile, and of its sites."""
    centres = made(8, 20_000).centres()
    sites = Counter((x, y) for _, x, y in centres)
    for tile, corner in enumerate(CORNERS):
        own = [sites[x + tile % 2 * 8, y + tile // 2 * 8] for x in range(8) for y in range(8)]
        yield [f"{tile} ({corner})", sum(own), min(own), f"{mean(own):.0f}", max(own)]


def whole() -> str:
    """How many events the sites have if the plane of the four tiles is one tile."""
    one = report(world("tutorial/rumour", tiles="1 1", size="16 16", attempts=80_000), elements("tutorial/rumour"))
    sites = Counter((x, y) for _, x, y in one.centres()).values()
    return f"{one.events:,} events: {span(sites)} at each site, and {mean(sites):.0f} on average\n"


def walk(seed: int) -> tuple[float, int]:
    """How far the walkers over a border go in a stepped run, and how many attempts beside the border are abandoned."""
    found = report(world("tutorial/border", seed=seed), elements("walker"), "step")
    lost = found.text[found.text.rindex(b"\nabandoned ") + 1:].splitlines()[1:]
    return mean(atom.x - BEGIN for atom in found.atoms), sum(int(line.split()[2]) in BESIDE for line in lost)


def border() -> str:
    """How far walkers go that cross a border, in stepped runs."""
    ways, lost = zip(*each(walk, WALKS))
    share = 100 * mean(lost) / (1_000_000 * len(BESIDE) / 512)
    return (f"{len(ways)} stepped runs it was {mean(ways):.1f}, with a standard error of {stdev(ways) / len(ways)**0.5:.1f}, "
            f"since {share:.0f}% of the attempts\n")


def heal() -> Iterator[str]:
    """What becomes of the regulator's population before half of the plane is cleared, and since."""
    files = [str(EXAMPLES / f"regulator.{end}") for end in ("world", "ulam")]
    options = ["--legs", "20", "--seed", "1000", "--keep", "reports", "--at", "11:clear:0,0,16,8"]
    with TemporaryDirectory() as folder:
        chain, lab = str(Path(folder, "heal")), str(EXAMPLES.parent / "lab")
        subprocess.run([lab, "chain", chain, *options, *files], check=True, capture_output=True)
        made_of = subprocess.run([lab, "film", chain, "--csv"], check=True, capture_output=True, text=True).stdout
    rows = [{name: float(it[name]) for name in ("events", "Resource", "Regulator")} for it in csv.DictReader(made_of.splitlines())]
    before = [it for it in rows if SETTLED <= it["events"] < DAMAGE]
    resources = [it["Resource"] for it in before]
    yield f"{span(resources)} resources, and {mean(resources):.0f} on average, with {mean(it['Regulator'] for it in before):.0f} regulators\n"
    at = {it["events"] - DAMAGE: it for it in rows}
    last = [it for it in rows if it["events"] == DAMAGE][0]
    yield table(("Events since the damage", "Resources", "Regulators"), [
        ("before", int(last["Resource"]), int(last["Regulator"])),
        *((moment, int(at[moment]["Resource"]), int(at[moment]["Regulator"])) for moment in SINCE)])


def tables() -> list[str]:
    """All tables and sentences of the page that runs of this program make the same each time."""
    ends = [knowing(it) for it in each(lambda seed: made(8, 20_000, seed), MORE)]
    return [
        table(("`size`", "Sites that need an edge", "`attempts` for each tile", "Events, % of attempts"), [rate(*it) for it in SIZES]),
        whole(),
        table(("Tile", "Events", "Fewest at a site", "Mean", "Most"), corners()),
        border(),
        table(("Stepped runs", "Fewest who know", "Mean", "Most"), [(len(ends), min(ends), f"{mean(ends):.1f}", max(ends))]),
        *heal(),
    ]
