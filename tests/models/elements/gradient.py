"""The elements of examples/gradient.ulam."""
from plane import EMPTY, Atom, Plane
from window import Elements, Window

FARTHEST = 40
BESIDE = range(1, 5)


def begin(window: Window) -> None:
    """Puts the first sites of the field where there is room beside the source."""
    for site in BESIDE:
        if window.is_empty(site):
            window.put(site, Atom("Field").put(0, 8, 1))


def measure(window: Window) -> None:
    """Takes over the least distance of its neighbours, plus one; spreads, or goes away."""
    distances = [FARTHEST]
    for site in BESIDE:
        atom = window.atom(site)
        if atom.kind in ("Source", "Field"):
            distances.append(0 if atom.kind == "Source" else atom.get(0, 8))
    if min(distances) == FARTHEST:
        window.put(0, EMPTY)
        return
    window.me = window.me.put(0, 8, min(distances) + 1)
    site = window.below(4) + 1
    if window.is_empty(site):
        window.put(site, Atom("Field").put(0, 8, min(distances) + 2))


def is_measured(plane: Plane) -> bool:
    """Whether each site knows its true distance from the only source, by steps to one of the four neighbours."""
    (column, row), = [(x, y) for x, y, atom in plane.sites() if atom.kind == "Source"]
    return all(atom.kind == "Source" or atom.get(0, 8) == abs(x - column) + abs(y - row)
               for x, y, atom in plane.sites()) and all(atom.kind != "Empty" for atom in plane.atoms)


ELEMENTS: Elements = {"Source": begin, "Field": measure}
