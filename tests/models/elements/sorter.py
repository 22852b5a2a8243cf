"""The elements of examples/sorter.ulam."""
from elements.diffusion import wander
from elements.stone import still
from window import NUMBERS, Elements, Window


def sort(window: Window) -> None:
    """Carries a number from the east to the west, northwards if it is less than the last one."""
    start = window.below(3)
    source = NUMBERS[1, (0, -1, 1)[start]]
    found = window.atom(source)
    if found.kind != "Number":
        wander(window)
        return
    value = found.get(0, 7)
    target = NUMBERS[-2, -1 if value < window.me.get(0, 7) else 1]
    if window.is_live(target) and window.is_empty(target):
        window.me = window.me.put(0, 7, value)
        window.swap(source, target)


ELEMENTS: Elements = {"Number": still, "Sorter": sort}
