"""The elements of examples/swapline.ulam."""
from plane import EMPTY, Atom, Plane, World
from window import NUMBERS, Elements, Window

LEVEL = 4
WEST, EAST = NUMBERS[-1, 0], NUMBERS[1, 0]
FIELDS = {-1: (0, 3), 1: (3, 3)}


def seen_at(window: Window, row: int) -> int:
    """The column of the line in a row beside, as a number from 1 to 7 with this atom's at 4; 0 if it has none."""
    columns = [column for column in range(1, 8) if window.atom(NUMBERS[column - LEVEL, row]).kind == "Line"]
    return max(columns, default=0)


def tell(window: Window, row: int, column: int, seen: int) -> None:
    """Both atoms note where the other stands, or is going to stand."""
    window.me = window.me.put(*FIELDS[row], seen)
    site = NUMBERS[column - LEVEL, row]
    other = window.atom(site)
    if other.kind == "Line":
        window.put(site, other.put(*FIELDS[-row], 2 * LEVEL - seen))


def mend(window: Window, row: int) -> None:
    """Puts the missing atom of a row where it stood, if that is known."""
    column = window.me.get(*FIELDS[row])
    if column == 0:
        free = [it for it in (LEVEL, LEVEL + 1) if window.is_empty(NUMBERS[it - LEVEL, row])]
        column = free[0] if free else LEVEL - 1
    site = NUMBERS[column - LEVEL, row]
    if window.is_live(site) and window.is_empty(site):
        window.put(site, Atom("Line"))
        tell(window, row, column, column)


def advance(window: Window) -> None:
    """Goes a column west, unless the line lags in a row beside it."""
    goes = window.is_live(WEST) and window.atom(WEST).kind != "Line"
    rows = [row for row in (-1, 1) if window.is_live(NUMBERS[0, row])]
    for row in rows:
        column = seen_at(window, row)
        if column == 0:
            mend(window, row)
        else:
            tell(window, row, column, column)
        goes &= 0 < column <= LEVEL
    if goes:
        for row in rows:
            column = seen_at(window, row)
            tell(window, row, column, column + 1)
        window.swap(0, WEST)


def prick(window: Window) -> None:
    """Takes away an atom of the line beside it, and itself."""
    for site in (WEST, EAST):
        if window.atom(site).kind == "Line":
            window.put(site, EMPTY)
            window.put(0, EMPTY)
            return


def is_swept(world: World, plane: Plane) -> bool:
    """Whether the line has come to rest in the west, and has moved each stone by exactly one column."""
    stones = {(x + 1, y) for x, y, atom in world.plane().sites() if atom.kind == "Stone"}
    line = {(0, y) for y in range(plane.height)}
    found = [(x, y, atom.kind) for x, y, atom in plane.sites()]
    return (stones == {(x, y) for x, y, kind in found if kind == "Stone"}
            and line == {(x, y) for x, y, kind in found if kind == "Line"})


ELEMENTS: Elements = {"Line": advance, "Thorn": prick}
