"""The element of examples/life.ulam, and Conway's Game of Life itself, by which it is judged."""
from plane import Atom, Plane, World
from window import NUMBERS, Elements, Window

END = 24
ALIVE, BEFORE, GENERATION = (0, 1), (1, 1), (2, 8)
AROUND = [(dx, dy) for dx in (-1, 0, 1) for dy in (-1, 0, 1) if (dx, dy) != (0, 0)]


def live_on(window: Window) -> None:
    """Goes on by one generation, if no neighbour lags behind and none is missing."""
    me = window.me
    generation = me.get(*GENERATION)
    if generation == END:
        return
    around, waits = 0, False
    for site in (NUMBERS[offset] for offset in AROUND):
        there = window.atom(site)
        if there.kind == "Cell":
            lead = there.get(*GENERATION) - generation
            waits |= lead < 0
            around += there.get(*(BEFORE if lead > 0 else ALIVE))
        elif there.kind == "Empty" and window.is_live(site):
            window.put(site, Atom("Cell").put(*GENERATION, generation))
            waits = True
    if not waits:
        alive = me.get(*ALIVE)
        born = around == 3 or around == 2 and alive == 1
        window.me = me.put(*BEFORE, alive).put(*ALIVE, int(born)).put(*GENERATION, generation + 1)


def plain_life(alive: set[tuple[int, int]], width: int, height: int) -> set[tuple[int, int]]:
    """The next generation on a plane beyond whose border nothing lives."""
    def count(x: int, y: int) -> int:
        """How many of the eight around a site are alive."""
        return sum((x + dx, y + dy) in alive for dx, dy in AROUND)
    sites = ((x, y) for x in range(width) for y in range(height))
    return {site for site in sites if count(*site) == 3 or count(*site) == 2 and site in alive}


def generations(world: World) -> list[set[tuple[int, int]]]:
    """What is alive in each generation of a world of cells, by plain Life alone."""
    plane = world.plane()
    found = [{(x, y) for x, y, atom in plane.sites() if atom.get(*ALIVE) == 1}]
    for _ in range(END):
        found.append(plain_life(found[-1], plane.width, plane.height))
    return found


def is_life(world: World, plane: Plane) -> bool:
    """Whether each cell is what plain Life makes of it in its generation, and was that before."""
    alive: list[set[tuple[int, int]]] = [set(), *generations(world)]
    for x, y, atom in plane.sites():
        now = atom.get(*GENERATION) + 1
        if atom.get(*ALIVE) != ((x, y) in alive[now]) or atom.get(*BEFORE) != ((x, y) in alive[now - 1]):
            return False
    return True


def is_over(plane: Plane) -> bool:
    """Whether each site has a cell of the last generation."""
    ages = [atom.get(*GENERATION) for _, _, atom in plane.sites()]
    return len(ages) == plane.width * plane.height and min(ages) == END


ELEMENTS: Elements = {"Cell": live_on}
