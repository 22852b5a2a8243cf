#!/usr/bin/env python3
"""Draws the window of an event, as SVG on standard output: its 41 sites with their numbers.

The sites are those within Manhattan distance 4 of the centre, numbered by distance, then by column, then by row.
"""
import sys
from pathlib import Path

sys.dont_write_bytecode = True
sys.path.insert(0, str(Path(__file__).resolve().parent.parent))

from feast_lab.lab.pictures import svg  # noqa: E402

REACH = 4
SIDE = 40  # of a site
# By distance from the centre; neighbouring rings differ in brightness too.
COLORS = ("#1b1f24", "#f0b429", "#cfe3f3", "#8fbfe0", "#e6eef5")


def sites() -> list[tuple[int, int]]:
    """The offset of each site from the centre, by its number."""
    span = range(-REACH, REACH + 1)
    inside = [(dx, dy) for dx in span for dy in span if abs(dx) + abs(dy) <= REACH]
    return sorted(inside, key=lambda site: (abs(site[0]) + abs(site[1]), *site))


def box(number: int, dx: int, dy: int) -> list[str]:
    """A site with its number."""
    x, y, far = (dx + REACH) * SIDE, (dy + REACH) * SIDE, abs(dx) + abs(dy)
    ink = "#fff" if far == 0 else svg.INK
    return [svg.rectangle(x, y, SIDE, SIDE, f'fill="{COLORS[far]}" stroke="{svg.BORDER}"'),
            svg.text(x + SIDE / 2, y + SIDE / 2 + 5, str(number), f' fill="{ink}" font-weight="600" text-anchor="middle"')]


def rulers() -> list[str]:
    """The offsets of columns and rows, above and beside the sites."""
    shown = []
    for offset in range(-REACH, REACH + 1):
        middle = (offset + REACH) * SIDE + SIDE / 2
        shown.append(svg.text(middle, -10, f"{offset:+d}" if offset else "0", ' text-anchor="middle"'))
        shown.append(svg.text(-10, middle + 5, f"{offset:+d}" if offset else "0", ' text-anchor="end"'))
    wide = (2 * REACH + 1) * SIDE
    return [*shown, svg.text(wide + 10, -10, "dx (east)"), svg.text(-44, wide + 22, "dy (south)")]


def main() -> int:
    """Writes the drawing."""
    wide = (2 * REACH + 1) * SIDE
    boxes = [part for number, site in enumerate(sites()) for part in box(number, *site)]
    parts = [svg.placed(52, 32, ['<g id="sites">', *boxes, "</g>", *rulers()])]
    about = "Site 0 is the centre; 1 is west of it, 2 north, 3 south and 4 east."
    sys.stdout.write(svg.figure("The 41 sites of a window by their numbers", about, wide + 140, wide + 64, parts))
    return 0


if __name__ == "__main__":
    sys.exit(main())
