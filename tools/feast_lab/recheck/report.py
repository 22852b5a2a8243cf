"""Reports: their text, and what is read from it again (docs/formats.md, "Report"). Refused with 80 to 83."""
from __future__ import annotations

import re
from dataclasses import dataclass, field
from typing import Iterable, NamedTuple, Optional, Sequence

from .draws import Attempt
from .faults import RefusedLine
from .plane import Plane
from .windows import Grid, kind_of, state_of

Plan = Sequence[Sequence[Attempt]]
NUMBER = rb"(0|[1-9][0-9]{0,19})"
ATOM = re.compile(NUMBER + b" " + NUMBER + rb" [A-Z][A-Za-z0-9_]{0,254} [0-9a-f]{18}")
RECORD = re.compile(b" ".join([NUMBER] * 5) + rb" ([0-9a-f]{16})")
ABANDONED = re.compile(b" ".join([NUMBER] * 7))
# The same in the short reports of a chain, in which sites and seeds are those of the attempts.
SHORT_RECORD = re.compile(b" ".join([NUMBER] * 3))
SHORT_ABANDONED = re.compile(b" ".join([NUMBER] * 5))
# Which numbers of a line are those of attempts, which have 64 bits; all others have 32.
ATTEMPTS = {ATOM: (), RECORD: (2,), ABANDONED: (1, 6), SHORT_RECORD: (2,), SHORT_ABANDONED: (1, 4)}


def attempt_of(plane: Plane, plan: Plan, tile: int, number: int) -> Optional[tuple[int, int, int]]:
    """The site and the seed of an attempt of a tile, if it has one of the number."""
    if tile >= len(plan) or number >= len(plan[tile]):
        return None
    position, seed = plan[tile][number]
    return *plane.site_in(tile, position), seed


class Record(NamedTuple):
    """An event: its stamp, its tile and the number of its attempt there, its site, and its seed."""

    stamp: int
    tile: int
    attempt: int
    x: int
    y: int
    seed: int


class Abandoned(NamedTuple):
    """An attempt that was abandoned: the edge that was held, the tile at its other end, and that tile's attempt."""

    tile: int
    attempt: int
    x: int
    y: int
    edge: int
    holder: int
    holder_attempt: int


@dataclass
class Journal:
    """The events and the abandoned attempts of a run, the lines of a report in which the first of each stands, and the text
    of the report."""

    records: list[Record] = field(default_factory=list)
    abandoned: list[Abandoned] = field(default_factory=list)
    record_line: int = 0
    abandoned_line: int = 0
    text: bytes = b""


class Lines:
    """The lines of a report, each of which ends with LF."""

    def __init__(self, data: bytes) -> None:
        self.lines = data.split(b"\n")
        self.has_end = self.lines.pop() == b""
        if not self.has_end:
            self.lines.append(b"")  # what no form has, in place of a line without its LF
        self.taken = 0

    def take(self) -> bytes:
        """The next line."""
        self.taken += 1
        if self.taken > len(self.lines):
            raise RefusedLine(80, self.taken)
        return self.lines[self.taken - 1]

    def form(self, form: re.Pattern[bytes]) -> list[int]:
        """The numbers of the next line, which has to have a form; seeds are hexadecimal."""
        found = form.fullmatch(self.take())
        if found is None:
            raise RefusedLine(80, self.taken)
        parts = found.groups()
        numbers = [int(part) for part in parts[: 5 if form is RECORD else len(parts)]]
        wide = ATTEMPTS.get(form, ())
        if any(number >> (64 if position in wide else 32) for position, number in enumerate(numbers)):
            raise RefusedLine(80, self.taken)
        return [*numbers, int(parts[5], 16)] if form is RECORD else numbers

    def count(self, title: bytes) -> int:
        """The number behind a title."""
        return self.form(re.compile(title + b" " + NUMBER))[0]


def read_reports(data: bytes, plane: Plane, plans: Iterable[Plan], is_short: bool) -> list[Journal]:
    """The journals of reports that stand one after another, one for each of some plans of attempts."""
    lines = Lines(data)
    journals = [read_report(lines, plane, plan, is_short) for plan in plans]
    if lines.taken < len(lines.lines):
        raise RefusedLine(80, lines.taken + 1)
    return journals


def read_report(lines: Lines, plane: Plane, plan: Plan, is_short: bool) -> Journal:
    """The events and abandoned attempts of the next report, of a run with these tiles and attempts."""
    before = lines.taken
    journal = Journal()
    if lines.take() != (b"feast 2" if is_short else b"feast 1"):
        raise RefusedLine(80, lines.taken)
    for _ in range(lines.count(b"atoms")):
        lines.form(ATOM)
    count = lines.count(b"journal")
    journal.record_line = lines.taken + 1
    last: dict[int, tuple[int, int]] = {}
    for _ in range(count):
        record = Record(*([*lines.form(SHORT_RECORD), 0, 0, 0] if is_short else lines.form(RECORD)))
        check_record(record, journal.records, last, lines.taken)
        journal.records.append(placed(record, plane, plan, lines.taken, is_short))
        last[record.tile] = record.attempt, lines.taken
    count = lines.count(b"abandoned")
    journal.abandoned_line = lines.taken + 1
    for _ in range(count):
        journal.abandoned.append(
            short_abandoned(lines.form(SHORT_ABANDONED), plane, plan) if is_short else Abandoned(*lines.form(ABANDONED))
        )
    journal.text = b"".join(line + b"\n" for line in lines.lines[before : lines.taken])
    return journal


def check_record(record: Record, before: Sequence[Record], last: dict[int, tuple[int, int]], line: int) -> None:
    """Refuses an event that is out of order: behind the one before, or behind the last one of its tile."""
    previous = (before[-1].stamp, before[-1].tile) if before else (0, 2**32)
    if (record.stamp, record.tile) <= previous:
        raise RefusedLine(81, line, line - 1 if before else 0)
    attempt, its_line = last.get(record.tile, (-1, 0))
    if record.attempt <= attempt:
        raise RefusedLine(81, line, its_line)


def placed(record: Record, plane: Plane, plan: Plan, line: int, is_short: bool) -> Record:
    """An event with its site and its seed, if that of a short report. Refuses one that is at no site of its tile, or is no
    attempt of it."""
    is_at_home = is_short or (plane.has(record.x, record.y) and plane.owner(record.x, record.y) == record.tile)
    if record.tile >= plane.tiles or not is_at_home:
        raise RefusedLine(82, line)
    found = attempt_of(plane, plan, record.tile, record.attempt)
    if found is None or not (is_short or found == record[3:]):
        raise RefusedLine(83, line)
    return Record(*record[:3], *found)


def short_abandoned(numbers: Sequence[int], plane: Plane, plan: Plan) -> Abandoned:
    """An abandoned attempt of a short report, at the site of the attempt, or at none if there is no such attempt."""
    tile, attempt, *others = numbers
    found = attempt_of(plane, plan, tile, attempt)
    return Abandoned(tile, attempt, *(found[:2] if found else (-1, -1)), *others)


def atoms_text(grid: Grid, names: Sequence[str], version: int = 1) -> str:
    """The first two parts of a report: the atoms of a grid, by the names of the elements from number 1 on."""
    sites = grid.sites()
    lines = [f"{x} {y} {names[kind_of(it) - 1]} {state_of(it):018x}\n" for x, y, it in sites]
    return f"feast {version}\natoms {len(sites)}\n" + "".join(lines)


def report_text(grid: Grid, names: Sequence[str], journal: Journal, is_short: bool = False) -> str:
    """The report of a grid, its events and its abandoned attempts."""
    records = [f"{it.stamp} {it.tile} {it.attempt} {it.x} {it.y} {it.seed:016x}\n" for it in journal.records]
    abandoned = [" ".join(map(str, it)) + "\n" for it in journal.abandoned]
    if is_short:
        records = [f"{it.stamp} {it.tile} {it.attempt}\n" for it in journal.records]
        abandoned = [f"{it.tile} {it.attempt} {it.edge} {it.holder} {it.holder_attempt}\n" for it in journal.abandoned]
    front = atoms_text(grid, names, 2 if is_short else 1)
    return "".join([front, f"journal {len(records)}\n", *records, f"abandoned {len(abandoned)}\n", *abandoned])


def counts_text(grid: Grid, names: Sequence[str], events: int, abandoned: int) -> str:
    """The report of a grid that only counts what happened."""
    return f"{atoms_text(grid, names, 3)}journal {events}\nabandoned {abandoned}\n"
