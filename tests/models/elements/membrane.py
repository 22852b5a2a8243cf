"""The elements of examples/membrane.ulam, and a flood from outside, by which the line is judged."""
from elements.diffusion import wander
from plane import Plane
from window import NUMBERS, Elements, Window

ROUND = [(1, 0), (1, -1), (0, -1), (-1, -1), (-1, 0), (-1, 1), (0, 1), (1, 1)]


def is_simple(line: set[tuple[int, int]], x: int, y: int) -> bool:
    """Whether the open sites around a site of the line, those that a side leads to, are one stretch."""
    is_open = [(x + dx, y + dy) not in line for dx, dy in ROUND]
    corners = range(0, 8, 2)
    return sum(is_open[k] and not (is_open[k + 1] and is_open[(k + 2) % 8]) for k in corners) == 1


def slide(window: Window) -> None:
    """Slides to an empty neighbour, where that changes nothing about what the line parts."""
    to = ROUND[window.below(8)]
    site = NUMBERS[to]
    if not window.is_live(site) or not window.is_empty(site):
        return
    line = {offset for offset, number in NUMBERS.items() if window.atom(number).kind == "Membrane"} | {to}
    if is_simple(line, *to) and is_simple(line, 0, 0):
        window.swap(0, site)


def outside(plane: Plane) -> set[tuple[int, int]]:
    """The sites that can be reached from beyond the border by the sides of sites that are not of the line."""
    reached: set[tuple[int, int]] = set()
    waiting = [(-1, -1)]
    while waiting:
        x, y = waiting.pop()
        is_near = -1 <= x <= plane.width and -1 <= y <= plane.height
        if is_near and (x, y) not in reached and plane.at(x, y).kind != "Membrane":
            reached.add((x, y))
            waiting += [(x + 1, y), (x - 1, y), (x, y + 1), (x, y - 1)]
    return reached


def is_kept(plane: Plane) -> bool:
    """Whether the grains are inside the line and the dust is outside."""
    reached = outside(plane)
    return all(((x, y) in reached) == (atom.kind == "Dust") for x, y, atom in plane.sites() if atom.kind != "Membrane")


ELEMENTS: Elements = {"Membrane": slide, "Grain": wander, "Dust": wander}
