"""Heat maps of a plane: a number for each site as a colour."""
from collections import defaultdict
from collections.abc import Mapping, Sequence

from ..formats.world import World
from . import svg

# From few to many: each step is brighter than the one before, so that it shows in grey too (after viridis).
STOPS = ("#440154", "#414487", "#2a788e", "#22a884", "#7ad151", "#fde725")
LEVELS = 32
BAR = 12  # how high the bar of a scale is
GAP = 28


def heat_map(world: World, sites: Sequence[int], panels: Mapping[str, Sequence[int]], title: str) -> str:
    """The figure: a map beside the other for each list of numbers; `sites` are the live ones."""
    size = svg.side(world)
    wide = max(world.columns * size, 280)
    high = svg.LINE + world.rows * size + 2 * svg.LINE + BAR
    parts = [scale()]
    for at, (name, numbers) in enumerate(panels.items()):
        x = svg.MARGIN + at * (wide + GAP)
        parts.append(svg.placed(x, svg.MARGIN, panel(world, sites, numbers, f"{title}: {name} of a site", size, wide)))
    about = f"Maps of the plane of {world.columns} by {world.rows} sites: {' and '.join(panels)} of each site."
    return svg.figure(f"{title}: {' and '.join(panels)} of each site", about,
                      2 * svg.MARGIN + len(panels) * (wide + GAP) - GAP, high + 2 * svg.MARGIN, parts)


def scale() -> str:
    """The colours from few to many, as a filling of the bars."""
    stops = "".join(f'<stop offset="{at / (len(STOPS) - 1):g}" stop-color="{color}"/>' for at, color in enumerate(STOPS))
    return f'<defs><linearGradient id="scale">{stops}</linearGradient></defs>'


def panel(world: World, sites: Sequence[int], numbers: Sequence[int], title: str, size: int, wide: float) -> list[str]:
    """One map, with its title above and its scale below."""
    live = [numbers[site] for site in sites]
    least, greatest = min(live), max(live)
    levels: dict[int, list[int]] = defaultdict(list)
    for site in sites:
        levels[(numbers[site] - least) * (LEVELS - 1) // max(greatest - least, 1)].append(site)
    painted = [f'<path d="{svg.runs(levels[level], world.columns, size)}" fill="{color(level / (LEVELS - 1))}"/>'
               for level in sorted(levels)]
    below = world.rows * size + svg.LINE + 8
    labels = [svg.text(0, below + BAR + 16, f"least {least:,}"),
              svg.text(wide, below + BAR + 16, f"greatest {greatest:,}", ' text-anchor="end"')]
    head = f"{title} (mean {sum(live) / len(live):,.1f})"
    return [svg.text(0, 14, head), svg.placed(0, svg.LINE, [*painted, *svg.borders(world, size)]),
            svg.rectangle(0, below, wide, BAR, f'fill="url(#scale)" stroke="{svg.BORDER}"'), *labels]


def color(part: float) -> str:
    """The colour of a number between the least, 0, and the greatest, 1."""
    at = min(int(part * (len(STOPS) - 1)), len(STOPS) - 2)
    rest = part * (len(STOPS) - 1) - at
    ends = [[int(stop[place:place + 2], 16) for place in (1, 3, 5)] for stop in STOPS[at:at + 2]]
    return "#" + "".join(f"{round(one + rest * (other - one)):02x}" for one, other in zip(*ends, strict=True))
