"""The elements of examples/fence.ulam."""
from plane import EMPTY, Atom
from window import NUMBERS, Elements, Window

WEST, EAST = NUMBERS[-1, 0], NUMBERS[1, 0]
POSTS = 12


def mend(window: Window) -> None:
    """Puts the posts that are missing on either side."""
    place = window.me.get(0, 7)
    for site, other in ((WEST, place - 1), (EAST, place + 1)):
        if 0 <= other < POSTS and window.is_empty(site):
            window.put(site, Atom("Fence").put(0, 7, other))


def gnaw(window: Window) -> None:
    """Wanders, and takes away a post in its way once in three times."""
    site = window.below(4) + 1
    if window.is_empty(site):
        window.swap(0, site)
    elif window.atom(site).kind == "Fence" and window.one_in(3):
        window.put(site, EMPTY)


ELEMENTS: Elements = {"Fence": mend, "Mouse": gnaw}
