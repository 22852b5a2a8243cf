"""Events one after another on one grid, and the whole judgement of a report (docs/theorem.md, docs/formats.md)."""
from __future__ import annotations

from typing import Iterable, Sequence

from .journal import Excuses, first_not_stamped, is_accounted
from .plane import Plane
from .report import Journal, Plan, Record, report_text
from .windows import Event, Grid


def replay(grid: Grid, event: Event, records: Iterable[Record]) -> None:
    """Makes the events of records one after another."""
    for it in records:
        event(grid.place(it.x, it.y), it.seed)


def judge(plane: Plane, plan: Plan, journal: Journal) -> str:
    """The first thing that is wrong with the entries of a report, or nothing."""
    if not is_accounted(plane, plan, journal):
        return "accounted"
    position = first_not_stamped(plane, journal.records)
    if position is not None:
        return f"stamped {journal.record_line + position}"
    position = Excuses(plane, plan, journal).first_not_excused(journal.abandoned)
    if position is not None:
        return f"excused {journal.abandoned_line + position}"
    return ""


def wrong_in(plane: Plane, plan: Plan, journal: Journal, left: Grid, names: Sequence[str], is_short: bool) -> str:
    """The first thing that is wrong with a report, or nothing, where `left` is what the events leave of the start."""
    is_written = report_text(left, names, journal, is_short).encode() == journal.text
    return judge(plane, plan, journal) or ("" if is_written else "atoms")
