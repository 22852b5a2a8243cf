"""The elements of examples/ants.ulam."""
from plane import EMPTY, Atom, Plane
from window import Elements, Window

TRAIL_FADING, WANDERING, FADING, FRESH = 8, 8, 4, 63
BESIDE = range(1, 5)
STORED = LEFT = (0, 10)
TRAIL_HOME, TRAIL_FOOD = (0, 6), (6, 6)
CARRYING, HOME, FOOD = (0, 1), (1, 6), (7, 6)


def rest(_window: Window) -> None:
    """A nest does nothing by itself."""


def vanish(window: Window) -> None:
    """A heap of which nothing is left goes away."""
    if window.me.get(*LEFT) == 0:
        window.put(0, EMPTY)


def evaporate(window: Window) -> None:
    """Scent gets weaker now and then, and is gone when nothing can be smelled."""
    me = window.me
    if window.one_in(TRAIL_FADING):
        me = me.put(*TRAIL_HOME, me.get(*TRAIL_HOME) - 1).put(*TRAIL_FOOD, me.get(*TRAIL_FOOD) - 1)
    window.put(0, me if me.get(*TRAIL_HOME) or me.get(*TRAIL_FOOD) else EMPTY)


def fainter(ant: Atom) -> Atom:
    """An ant whose scent is weaker by one."""
    return ant.put(*HOME, ant.get(*HOME) - 1).put(*FOOD, ant.get(*FOOD) - 1)


def forage(window: Window) -> None:
    """Exchanges bites with what stands beside it, and goes where the scent is strongest, or anywhere."""
    me = fainter(window.me) if window.one_in(FADING) else window.me
    for site in BESIDE:
        me = met(window, site, me)
    ahead = best(window, me)
    if ahead == 0 or window.one_in(WANDERING):
        ahead = window.below(4) + 1
    window.me = me
    there = window.atom(ahead)
    if window.is_live(ahead) and there.kind in ("Empty", "Trail"):
        gone = fainter(me)
        if there.kind == "Trail":
            gone = gone.put(*HOME, max(gone.get(*HOME), there.get(*TRAIL_HOME)))
            gone = gone.put(*FOOD, max(gone.get(*FOOD), there.get(*TRAIL_FOOD)))
        window.put(ahead, gone)
        window.put(0, Atom("Trail").put(*TRAIL_HOME, me.get(*HOME)).put(*TRAIL_FOOD, me.get(*FOOD)))


def met(window: Window, site: int, me: Atom) -> Atom:
    """An ant after it has met what is at a site: it takes a bite of food, and gives one to the nest."""
    other = window.atom(site)
    if other.kind == "Food":
        me = me.put(*FOOD, FRESH)
        if not me.get(*CARRYING) and other.get(*LEFT):
            window.put(site, other.put(*LEFT, other.get(*LEFT) - 1))
            return me.put(*CARRYING, 1)
    if other.kind == "Nest":
        me = me.put(*HOME, FRESH)
        if me.get(*CARRYING):
            window.put(site, other.put(*STORED, other.get(*STORED) + 1))
            return me.put(*CARRYING, 0)
    return me


def best(window: Window, me: Atom) -> int:
    """The first neighbour with the strongest scent of where an ant wants to go; 0 if none is stronger than its own."""
    wanted, own = (TRAIL_HOME, HOME) if me.get(*CARRYING) else (TRAIL_FOOD, FOOD)
    scents = {site: window.atom(site).get(*wanted) for site in BESIDE if window.atom(site).kind == "Trail"}
    found = max(scents, key=lambda site: scents[site], default=0)
    return found if found and scents[found] > me.get(*own) else 0


def bites(plane: Plane) -> int:
    """How many bites there are: in the nest, on the way, and in the heaps."""
    fields = {"Nest": STORED, "Food": LEFT, "Ant": CARRYING}
    return sum(atom.get(*fields[atom.kind]) for _, _, atom in plane.sites() if atom.kind in fields)


ELEMENTS: Elements = {"Nest": rest, "Food": vanish, "Trail": evaporate, "Ant": forage}
