"""What reports say, read once more by their rules in docs/formats.md, as reading.py reads worlds."""
from __future__ import annotations

from typing import NamedTuple, Optional

from reading import Attempt, Fault, Stop, World, stop
from report_lines import ReportLines


class Last(NamedTuple):
    """The last record of a tile: its attempt, and its line."""

    attempt: int
    line: int


def read_records(report: ReportLines, world: World, count: int) -> None:
    """Takes the records of a report."""
    before = (0, -1)
    before_line = 0
    last: dict[int, Last] = {}
    plans: dict[int, list[Attempt]] = {}
    for _ in range(count):
        stamp, tile, number, x, y, seed = report.event()
        line = report.at
        if (stamp, tile) <= before or stamp == 0:
            stop(81, line, before_line)
        if tile in last and number <= last[tile].attempt:
            stop(81, line, last[tile].line)
        if tile >= world.count() or world.owner(x, y) != tile:
            stop(82, line)
        if tile not in plans:
            plans[tile] = world.attempts_of(tile)
        plan = plans[tile]
        if number >= len(plan) or plan[number] != Attempt(x, y, seed):
            stop(83, line)
        before, before_line = (stamp, tile), line
        last[tile] = Last(number, line)


def read_report(report: ReportLines, world: World) -> None:
    """Takes a report of a world; `Stop` where it is refused."""
    report.head(b"1")
    for _ in range(report.count(b"atoms")):
        report.atom()
    read_records(report, world, report.count(b"journal"))
    for _ in range(report.count(b"abandoned")):
        report.loss()
    report.end()


def report_fault(text: bytes, world: World) -> Optional[Fault]:
    """The refusal of a report of a world, or None."""
    try:
        read_report(ReportLines(text, stop), world)
    except Stop as found:
        return found.fault
    return None
