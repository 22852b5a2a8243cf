#!/usr/bin/env python3
"""Draws four tiles with the sites near their borders and an edge that is held, as SVG on standard output.

A site's colour says how many edges an event there needs: one to each other tile that holds a site of its window, which
are the sites up to four columns and rows beyond that tile's own.
"""
import sys

sys.dont_write_bytecode = True

from sheet import svg  # noqa: E402
from window import REACH, sites  # noqa: E402

TILE, ACROSS = 16, 2  # the side of a tile, and how many tiles there are each way
SIDE = 15  # of a site
PLANE = TILE * ACROSS
COLORS = ("#fff", "#d6e6f2", "#9cc4e0", "#5a9bc8")
HELD, LOST = "#d55e00", "#a00000"
# Three attempts, by their sites: one holds the edge of the upper tiles, one finds it held, and one needs no edge.
ACTING, ABANDONED, FREE = (12, 4), (19, 5), (27, 4)


def reaches(tile: tuple[int, int], x: int, y: int) -> bool:
    """Whether a site is at most four columns and rows beyond a tile's own."""
    return all(-REACH <= at - TILE * place < TILE + REACH for at, place in zip((x, y), tile))


def needed(x: int, y: int) -> int:
    """How many edges an event at a site needs."""
    own = (x // TILE, y // TILE)
    window = [(x + dx, y + dy) for dx, dy in sites() if 0 <= x + dx < PLANE and 0 <= y + dy < PLANE]
    others = [(column, row) for column in range(ACROSS) for row in range(ACROSS) if (column, row) != own]
    return sum(any(reaches(other, *site) for site in window) for other in others)


def ground() -> list[str]:
    """The sites, by how many edges they need, and the borders of the tiles."""
    counts = {(x, y): needed(x, y) for y in range(PLANE) for x in range(PLANE)}
    shown = []
    for number, color in enumerate(COLORS):
        chosen = [y * PLANE + x for (x, y), edges in counts.items() if edges == number]
        shown.append(f'<path d="{svg.runs(chosen, PLANE, SIDE)}" fill="{color}"/>')
    far = PLANE * SIDE
    return [*shown, f'<path d="{svg.lines(far, far, SIDE, SIDE)}" stroke="#000" stroke-opacity=".1" fill="none"/>',
            f'<path d="{svg.lines(far, far, TILE * SIDE, TILE * SIDE)}" stroke="{svg.BORDER}" stroke-width="3" fill="none"/>']


def middle(site: tuple[int, int]) -> tuple[float, float]:
    """The middle of a site."""
    return (site[0] + 0.5) * SIDE, (site[1] + 0.5) * SIDE


def window(site: tuple[int, int], color: str) -> str:
    """The window of an attempt: its sites, and a dot in the middle."""
    places = [(site[1] + dy) * PLANE + site[0] + dx for dx, dy in sites()]
    x, y = middle(site)
    return (f'<path d="{svg.runs(places, PLANE, SIDE)}" fill="{color}" fill-opacity=".35"/>'
            f'<circle cx="{svg.number(x)}" cy="{svg.number(y)}" r="5" fill="{color}"/>')


def attempts() -> list[str]:
    """The edge that is held, and the three attempts."""
    first, high = (TILE - REACH) * SIDE, (TILE + REACH) * SIDE
    edge = svg.rectangle(first, 0, 2 * REACH * SIDE, high, f'fill="none" stroke="{HELD}" stroke-width="3" stroke-dasharray="8 5"')
    x, y = middle(ABANDONED)
    cross = f'<path d="M{x - 7} {y - 7}l14 14m0 -14l-14 14" stroke="{LOST}" stroke-width="4"/>'
    return [edge, window(ACTING, HELD), window(ABANDONED, LOST), cross, window(FREE, "#009e73")]


def legend(top: float) -> list[str]:
    """What the colours and marks mean."""
    shown, x = [], 0.0
    for number, color in enumerate(COLORS):
        words = ("needs no edge", "one edge", "two edges", "three")[number]
        shown += [svg.rectangle(x, top, 18, 14, f'fill="{color}" stroke="{svg.BORDER}"'), svg.text(x + 24, top + 12, words)]
        x += 36 + len(words) * svg.LETTER
    lines = ((HELD, "an event of tile 0 holds edge 0; dashed: what tiles 0 and 1 share"),
             (LOST, "an attempt of tile 1 needs the edge too, and is abandoned"),
             ("#009e73", "another one needs no edge, and becomes an event"))
    for number, (color, words) in enumerate(lines, 1):
        y = top + number * svg.LINE
        shown += [f'<circle cx="9" cy="{svg.number(y + 7)}" r="5" fill="{color}"/>', svg.text(24, y + 12, words)]
    return shown


def main() -> int:
    """Writes the drawing."""
    far = PLANE * SIDE
    names = [svg.text((column * TILE + 0.4) * SIDE, (row * TILE + TILE - 0.5) * SIDE, f"tile {row * ACROSS + column}", ' font-weight="600"')
             for row in range(ACROSS) for column in range(ACROSS)]
    parts = [svg.placed(svg.MARGIN, svg.MARGIN, [*ground(), *attempts(), *names, *legend(far + 12)])]
    about = ("Sites within eight columns or rows of a border need an edge for their events, and those around the common corner "
             "need three. Tile 0 holds the edge to tile 1, so an attempt of tile 1 beside it is abandoned.")
    high = far + 12 + 4 * svg.LINE + 2 * svg.MARGIN
    sys.stdout.write(svg.figure("Four tiles of 16 by 16 sites, and an edge that is held", about, far + 2 * svg.MARGIN, high, parts))
    return 0


if __name__ == "__main__":
    sys.exit(main())
