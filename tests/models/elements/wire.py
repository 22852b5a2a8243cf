"""The elements of examples/wire.ulam."""
from plane import Atom, Plane
from window import NUMBERS, Elements, Window

REST, LIT, TIRED = 0, 1, 2
LAST, WAIT = 12, 10
WEST, EAST = NUMBERS[-1, 0], NUMBERS[1, 0]
PHASE, PLACE, COUNT, SENT, HEARD = (0, 2), (2, 6), (2, 7), (9, 8), (2, 8)


def is_lit(atom: Atom) -> bool:
    """Whether an atom has a pulse to hand on to the east."""
    return atom.kind in ("Wire", "Clock") and atom.get(*PHASE) == LIT


def is_busy(atom: Atom) -> bool:
    """Whether an atom has taken a pulse, and isn't at rest again."""
    return atom.kind in ("Wire", "Bell") and atom.get(*PHASE) != REST


def hand_on(window: Window) -> None:
    """Puts the pieces that are missing on either side, and hands a pulse on from west to east."""
    place, phase = window.me.get(*PLACE), window.me.get(*PHASE)
    for site, other in ((EAST, place + 1), (WEST, place - 1)):
        if 0 <= other <= LAST and window.is_empty(site):
            window.put(site, Atom("Wire").put(*PLACE, other))
    west, east = is_lit(window.atom(WEST)), is_busy(window.atom(EAST))
    goes = {REST: west and not east, LIT: east, TIRED: not west}[phase]
    if goes:
        window.me = window.me.put(*PHASE, (phase + 1) % 3)


def tick(window: Window) -> None:
    """Counts, and sends a pulse now and then."""
    east = window.atom(EAST)
    is_taken = east.kind == "Wire" and is_busy(east)
    me = window.me.put(*COUNT, window.me.get(*COUNT) + 1)
    if me.get(*PHASE) == LIT:
        me = me.put(*PHASE, REST) if is_taken else me
    elif me.get(*COUNT) >= WAIT and not is_taken:
        me = me.put(*PHASE, LIT).put(*COUNT, 0).put(*SENT, me.get(*SENT) + 1)
    window.me = me


def hear(window: Window) -> None:
    """Counts a pulse once."""
    west, me = window.atom(WEST), window.me
    pulse = west.kind == "Wire" and is_lit(west)
    if me.get(*PHASE) == REST and pulse:
        window.me = me.put(*PHASE, TIRED).put(*HEARD, me.get(*HEARD) + 1)
    elif me.get(*PHASE) != REST and not pulse:
        window.me = me.put(*PHASE, REST)


def is_counted(plane: Plane) -> bool:
    """Whether each pulse that was sent was heard, or is on its way: at a lit atom whose neighbour hasn't taken it yet."""
    atoms = list(plane.sites())
    sent = sum(atom.get(*SENT) for _, _, atom in atoms if atom.kind == "Clock")
    heard = sum(atom.get(*HEARD) for _, _, atom in atoms if atom.kind == "Bell")
    return sent == heard + sum(is_lit(atom) and not is_busy(plane.at(x + 1, y)) for x, y, atom in atoms)


ELEMENTS: Elements = {"Wire": hand_on, "Clock": tick, "Bell": hear}
