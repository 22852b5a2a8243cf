"""The element of examples/diffusion.ulam."""
from window import Elements, Window


def wander(window: Window) -> None:
    """Goes to one of the four sites next to it, if that is empty."""
    site = window.below(4) + 1
    if window.is_empty(site):
        window.swap(0, site)


ELEMENTS: Elements = {"Particle": wander}
