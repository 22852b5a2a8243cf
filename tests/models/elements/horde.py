"""The elements of examples/horde.ulam; it is run with those of regulator.ulam."""
from elements.stone import still
from plane import EMPTY, Atom, Plane
from window import NUMBERS, Elements, Window

PACE = 20
STEP = 8
LOOKS = 8
VALUE, RIGHT, COUNT, ERROR = (0, 7), (0, 7), (7, 16), (23, 24)
NORTH, SOUTH, WEST, EAST = NUMBERS[0, -1], NUMBERS[0, 1], NUMBERS[-1, 0], NUMBERS[1, 0]
SOURCES = [NUMBERS[it] for it in ((1, 0), (1, -1), (1, 1), (2, 0), (1, -2), (1, 2), (2, -1), (2, 1))]
NORTHERN = [NUMBERS[it] for it in ((-1, -1), (-2, -1), (-1, -2))]
SOUTHERN = [NUMBERS[it] for it in ((-1, 1), (-2, 1), (-1, 2))]


def emit(window: Window) -> None:
    """Mends its column, and puts out a number now and then."""
    for site in (NORTH, SOUTH):
        if window.is_empty(site):
            window.put(site, window.me)
    if window.is_empty(WEST) and window.one_in(PACE):
        window.put(WEST, Atom("Number").put(*VALUE, window.below(128)))


def consume(window: Window) -> None:
    """Mends its column, and takes in the numbers to its east."""
    me = window.me
    right = me.get(*RIGHT)
    for site, number in ((NORTH, right - STEP), (SOUTH, right + STEP)):
        if number >= 0 and window.is_empty(site):
            window.put(site, Atom("Consumer").put(*RIGHT, number))
    for site in (EAST, NUMBERS[2, 0]):
        there = window.atom(site)
        if there.kind == "Number":
            wrong = abs(there.get(*VALUE) - right)
            me = me.put(*COUNT, me.get(*COUNT) + 1).put(*ERROR, me.get(*ERROR) + wrong)
            window.put(site, EMPTY)
    window.me = me


def sort(window: Window) -> None:
    """Carries a number westwards; without one it wanders, and turns a resource into a sorter."""
    for _ in range(LOOKS):
        source = SOURCES[window.below(8)]
        found = window.atom(source)
        if found.kind == "Number":
            value = found.get(*VALUE)
            place = window.below(3)
            target = (NORTHERN if value < window.me.get(*VALUE) else SOUTHERN)[place]
            if window.is_live(target) and window.is_empty(target):
                window.me = window.me.put(*VALUE, value)
                window.swap(source, target)
                return
    site = window.below(4) + 1
    if window.atom(site).kind == "Resource":
        window.put(site, window.me)
    elif window.is_empty(site):
        window.swap(0, site)


def tally(plane: Plane) -> tuple[int, float]:
    """How many numbers the consumers have taken, and by how much these were wrong on average."""
    consumers = [atom for _, _, atom in plane.sites() if atom.kind == "Consumer"]
    count = sum(atom.get(*COUNT) for atom in consumers)
    return count, sum(atom.get(*ERROR) for atom in consumers) / max(count, 1)


ELEMENTS: Elements = {"Number": still, "Emitter": emit, "Consumer": consume, "Sorter": sort}
