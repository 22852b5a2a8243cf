"""Figures as SVG: a plane with the borders of its tiles, and a legend below it."""
from collections.abc import Iterable, Sequence
from html import escape

from ..formats.world import World

INK = "#1b1f24"
BORDER = "#3c444c"
OFF = "#b9bdc1"
MARGIN = 8
TEXT = 14  # the height of a text
LINE = 22  # from one line of a legend to the next
LETTER = 0.62 * TEXT  # the width that a letter takes at most, on the average
FONT = 'font-family="system-ui, sans-serif"'


def side(world: World) -> int:
    """How wide a site is drawn: so that the plane is some 640 wide or high, and a site at most 24."""
    return max(2, min(24, 640 // max(world.columns, world.rows)))


def number(value: float) -> str:
    """A length, with two decimals at most."""
    return f"{value:.2f}".rstrip("0").rstrip(".")


def text(x: float, y: float, words: str, more: str = "") -> str:
    """A text that begins at a point of its base line."""
    return f'<text x="{number(x)}" y="{number(y)}"{more}>{escape(words)}</text>'


def rectangle(x: float, y: float, width: float, height: float, more: str) -> str:
    """A rectangle."""
    return f'<rect x="{number(x)}" y="{number(y)}" width="{number(width)}" height="{number(height)}" {more}/>'


def runs(sites: Iterable[int], columns: int, size: int) -> str:
    """The outline of some sites: a box for each run of sites next to each other in a row."""
    boxes: list[list[int]] = []
    for site in sorted(sites):
        if boxes and site == boxes[-1][0] + boxes[-1][1] and site % columns:
            boxes[-1][1] += 1
        else:
            boxes.append([site, 1])
    return "".join(f"M{first % columns * size} {first // columns * size}h{length * size}v{size}h-{length * size}z"
                   for first, length in boxes)


def borders(world: World, size: int) -> list[str]:
    """The tiles that are off, the lines between sites if there is room for them, and the borders of tiles."""
    wide, high = world.columns * size, world.rows * size
    off = [rectangle(tile % world.tiles_x * world.width * size, tile // world.tiles_x * world.height * size,
                     world.width * size, world.height * size, f'fill="{OFF}"') for tile in world.off]
    fine = lines(wide, high, size, size) if size >= 8 else ""
    return [*off, f'<path d="{fine}" stroke="#000" stroke-opacity=".12" fill="none"/>',
            f'<path d="{lines(wide, high, world.width * size, world.height * size)}" stroke="{BORDER}" '
            f'stroke-width="{max(1, size // 10)}" stroke-linecap="square" fill="none"/>']


def lines(wide: int, high: int, across: int, down: int) -> str:
    """Lines from top to bottom and from left to right, at these distances."""
    return "".join([*(f"M{x} 0V{high}" for x in range(0, wide + 1, across)),
                    *(f"M0 {y}H{wide}" for y in range(0, high + 1, down))])


def placed(x: float, y: float, parts: Iterable[str]) -> str:
    """Parts whose own points are counted from a point of the figure."""
    return f'<g transform="translate({number(x)} {number(y)})">\n' + "\n".join(parts) + "\n</g>"


def figure(title: str, about: str, wide: float, high: float, parts: Sequence[str]) -> str:
    """A whole figure; `about` is for those who don't see it."""
    size = f'width="{number(wide)}" height="{number(high)}" viewBox="0 0 {number(wide)} {number(high)}"'
    head = f'<svg xmlns="http://www.w3.org/2000/svg" {size} role="img" {FONT} font-size="{TEXT}" fill="{INK}">'
    ground = rectangle(0, 0, wide, high, 'fill="#fff"')
    return "\n".join([head, f"<title>{escape(title)}</title>", f"<desc>{escape(about)}</desc>", ground, *parts, "</svg>\n"])
