"""The elements of examples/regulator.ulam."""
from elements.diffusion import wander
from plane import EMPTY, Atom
from window import Elements, Window

REGULATOR_ODDS = 40
RESOURCE_ODDS = 10
REGULATOR_LOSS = 4
OTHER_LOSS = 10


def regulate(window: Window) -> None:
    """Fills an empty neighbour now and then, and clears a taken one."""
    site = window.below(4) + 1
    there = window.atom(site)
    if there.kind == "Empty":
        if window.one_in(REGULATOR_ODDS):
            window.put(site, window.me)
        elif window.one_in(RESOURCE_ODDS):
            window.put(site, Atom("Resource"))
        else:
            window.swap(0, site)
    elif window.one_in(REGULATOR_LOSS if there.kind == "Regulator" else OTHER_LOSS):
        window.put(site, EMPTY)


ELEMENTS: Elements = {"Regulator": regulate, "Resource": wander}
