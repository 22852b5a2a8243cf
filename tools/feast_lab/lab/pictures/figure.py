"""A plane and its atoms as an SVG, a figure for a paper."""
from collections import defaultdict
from collections.abc import Mapping, Sequence
from dataclasses import replace

from ..formats.world import World
from . import heat, svg
from .marks import Mark, ink
from .tints import Tint

BAR = 160  # how wide the bar of a scale is
LETTERS_FROM = 12  # the least size of a site that has room for letters


def plane_figure(world: World, atoms: Sequence[str], marks: Sequence[Mark], caption: str,
                 tints: Mapping[str, Tint]) -> str:
    """The figure of a plane whose atoms are given as lines of a report. Elements with a tint are coloured by a member."""
    size = svg.side(world)
    by_name = {mark.name: mark for mark in marks}
    sites: dict[str, list[int]] = defaultdict(list)
    shades: dict[Mark, list[int]] = defaultdict(list)
    for line in atoms:
        x, y, name, state = line.split(" ")
        site = int(y) * world.columns + int(x)
        sites[name].append(site)
        color = tints[name].color(int(state, 16)) if name in tints else by_name[name].color
        shades[replace(by_name[name], color=color)].append(site)
    shown = sorted(shades, key=lambda mark: (list(by_name).index(mark.name), mark.color))
    plane = [*(painted(world, mark, shades[mark], size) for mark in shown), *svg.borders(world, size),
             *(line for mark in shown for line in letters(world, mark, shades[mark], size))]
    wide = max(world.columns * size, svg.LETTER * len(caption))
    legend, high = legend_of(sites, marks, wide)
    scales, high = scales_of(list(tints.values()), high)
    top = world.rows * size + svg.MARGIN + svg.LINE
    counts = ", ".join(f"{len(sites[mark.name]):,} {mark.name}" for mark in marks)
    parts = [svg.placed(svg.MARGIN, svg.MARGIN, plane),
             svg.placed(svg.MARGIN, top, [svg.text(0, 0, caption), *legend, *scales])]
    return svg.figure(caption, f"A plane of {world.columns} by {world.rows} sites with {counts}.",
                      wide + 2 * svg.MARGIN, top + high + svg.MARGIN, parts)


def painted(world: World, mark: Mark, sites: Sequence[int], size: int) -> str:
    """Sites in the colour of a mark."""
    return f'<path d="{svg.runs(sites, world.columns, size)}" fill="{mark.color}"/>'


def letters(world: World, mark: Mark, sites: Sequence[int], size: int) -> list[str]:
    """The symbol of a mark on each of its sites, if there is room for it."""
    if size < LETTERS_FROM:
        return []
    high = size * (0.6 if len(mark.symbol) == 1 else 0.46)
    texts = [svg.text((site % world.columns + 0.5) * size, site // world.columns * size + 0.5 * size + 0.36 * high,
                      mark.symbol) for site in sorted(sites)]
    style = f'fill="{ink(mark.color)}" font-size="{svg.number(high)}" font-weight="600" text-anchor="middle"'
    return [f"<g {style}>", *texts, "</g>"]


def scales_of(tints: Sequence[Tint], y: float) -> tuple[list[str], float]:
    """A bar of colours for each tint, with the least and the greatest value beside it, and how high all is with them."""
    parts = [heat.scale()] if tints else []
    for tint in tints:
        y += svg.LINE
        least = f"{tint.name} {tint.least:,}"
        bar = svg.LETTER * len(least) + 8
        parts += [svg.text(0, y, least), svg.text(bar + BAR + 8, y, f"{tint.greatest:,}"),
                  svg.rectangle(bar, y - 14, BAR, 18, f'fill="url(#scale)" stroke="{svg.BORDER}"')]
    return parts, y


def legend_of(sites: Mapping[str, list[int]], marks: Sequence[Mark], wide: float) -> tuple[list[str], float]:
    """Colour, symbol, name and count of each element below the caption, and how high that is."""
    parts = []
    x, y = 0.0, float(svg.LINE)
    for mark in marks:
        words = f"{mark.name} {len(sites[mark.name]):,}"
        length = 34 + svg.LETTER * len(words) + 14
        if x and x + length > wide:
            x, y = 0.0, y + svg.LINE
        parts += [svg.rectangle(x, y - 14, 28, 18, f'fill="{mark.color}" stroke="{svg.BORDER}"'),
                  svg.text(x + 14, y, mark.symbol, f' fill="{ink(mark.color)}" font-weight="600" text-anchor="middle"'),
                  svg.text(x + 34, y, words)]
        x += length
    return parts, y
