"""The elements of examples/forkbomb.ulam."""
from plane import EMPTY
from window import OFFSETS, Elements, Window

PATIENCE = 10


def fork(window: Window) -> None:
    """Puts a copy of itself at an empty neighbour."""
    site = window.below(4) + 1
    if window.is_empty(site):
        window.put(site, window.me)


def defuse(window: Window) -> None:
    """Turns a bomb into its own kind; vanishes where it sees none, once it was used."""
    site = window.below(4) + 1
    if window.atom(site).kind == "ForkBomb":
        window.me = window.me.put(0, 1, 1)
        window.put(site, window.me)
        return
    sees = any(window.atom(number).kind == "ForkBomb" for number in range(1, len(OFFSETS)))
    if window.me.get(0, 1) == 1 and not sees and window.one_in(PATIENCE):
        window.put(0, EMPTY)
    elif window.is_empty(site):
        window.swap(0, site)


ELEMENTS: Elements = {"ForkBomb": fork, "AntiForkBomb": defuse}
