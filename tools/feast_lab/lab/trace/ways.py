"""The events that touched a site, and the way of one atom, as rows."""
from collections.abc import Iterator, Sequence

from ..base.errors import LabError
from ..base.limits import STATE_BITS
from ..formats.layout import Layout
from ..formats.report import JournalRecord
from ..machine.maker import OFFSETS, REACH, MadeEvent
from .retraced import Retraced
from .teller import described

NUMBERS = {offset: number for number, offset in enumerate(OFFSETS)}
Row = Sequence[object]


def is_near(record: JournalRecord, x: int, y: int) -> bool:
    """Whether a site lies in the window of an event."""
    return abs(record.x - x) + abs(record.y - y) <= REACH


def site_rows(retraced: Retraced, layout: Layout, x: int, y: int, since: int) -> Iterator[Row]:
    """A head, and a row for each event that changed the atom of a site, or had an atom there as its centre."""
    yield "event", "x", "y", "element", "site", "before", "after", "cause"
    names = retraced.maker.names
    for made in retraced.events(since):
        if is_near(made.record, x, y):
            site = NUMBERS[x - made.record.x, y - made.record.y]
            before, after = made.before[site], made.after[site]
            if site == 0 or before != after:
                yield (made.number, made.record.x, made.record.y, names[made.acting], site,
                       described(layout, names, before), described(layout, names, after), made.ending.cause or "")


def atom_rows(retraced: Retraced, layout: Layout, x: int, y: int, since: int) -> Iterator[Row]:
    """A head, and a row for each event that moved, changed or ended the atom that is at a site after so many events."""
    yield "event", "what", "x", "y", "atom", "by", "cause"
    names = retraced.maker.names
    atom = atom_at(retraced, x, y, since)
    if not atom:
        raise LabError(f"{x} {y}: there is no atom after {since} events")
    yield since, "begins", x, y, described(layout, names, atom), "", ""
    for made in retraced.events(since, lambda record: is_near(record, x, y)):
        if is_near(made.record, x, y):
            was = NUMBERS[x - made.record.x, y - made.record.y]
            now = site_after(made, was)
            if now == was and made.before[was] == made.after[was]:
                continue
            by = names[made.acting]
            if now is None:
                yield made.number, "ends", x, y, described(layout, names, made.before[was]), by, made.ending.cause or ""
                return
            x, y = made.record.x + OFFSETS[now][0], made.record.y + OFFSETS[now][1]
            yield made.number, "changes" if now == was else "moves", x, y, described(layout, names, made.after[now]), by, ""


def atom_at(retraced: Retraced, x: int, y: int, since: int) -> int:
    """The atom at a site after so many events."""
    leg, events = retraced.recording.leg_at(since)
    retraced.maker.begin(retraced.atoms(retraced.legs[list(retraced.recording.legs).index(leg)], events))
    return retraced.maker.cells[y * retraced.recording.world.columns + x]


def site_after(made: MadeEvent, site: int) -> int | None:
    """At which site of the window an atom is after an event, if it is at one before; nothing if it has ended."""
    if made.ending.cause:
        return None if site == 0 else site
    kind = made.before[site] >> STATE_BITS
    now: int | None = site
    puts: set[int] = set()
    for deed in made.deeds:
        if deed.what == "swap" and deed.numbers[2]:
            one, other = deed.numbers[:2]
            puts = {other if put == one else one if put == other else put for put in puts}
            now = other if now == one else one if now == other else now
        elif deed.what == "store" and deed.numbers[1]:
            put, _, atom = deed.numbers
            puts.discard(put)
            if atom >> STATE_BITS != kind:
                now = None if now == put else now
            elif put != now:
                puts.add(put)
    return now if now is not None else puts.pop() if len(puts) == 1 else None
