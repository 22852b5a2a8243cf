"""The elements of examples/seasons.ulam."""
from plane import EMPTY, Atom
from window import Elements, Window

OLD = 7


def wither(window: Window) -> None:
    """Grows older, and vanishes in the end."""
    age = window.me.get(0, 7)
    if age == OLD:
        window.put(0, EMPTY)
    else:
        window.me = window.me.put(0, 7, age + 1)


def flourish(window: Window) -> None:
    """Grows older, and in the end begins anew and puts out a leaf."""
    age = window.me.get(0, 7)
    if age != OLD:
        window.me = window.me.put(0, 7, age + 1)
        return
    window.me = window.me.put(0, 7, 0)
    site = window.below(4) + 1
    if window.is_live(site) and window.is_empty(site):
        window.me = window.me.put(7, 8, window.me.get(7, 8) + 1)
        window.put(site, Atom("Leaf"))


ELEMENTS: Elements = {"Leaf": wither, "Bush": flourish}
