"""The words of a call, the files that it names, and what it writes (docs/recheck.md; docs/formats.md, "Words")."""
from __future__ import annotations

import os
import re
import sys
from typing import Callable, Optional, Sequence, TypeVar

from . import trees
from .elements import elements_of, read_elements
from .faults import Refused, RefusedLine, line_and_column, refusal_line
from .chain import read_world
from .layout import layout_text
from .limits import ELEMENT_LIMIT, JOURNAL_LIMIT, MOST_ATTEMPTS, MOST_FILES, WORLD_LIMIT
from .meaning import event_maker
from .order import replay, wrong_in
from .report import Journal, atoms_text, counts_text, read_reports, report_text
from .stepped import Machine, flat_run
from .windows import Event, Grid
from .world import Text, start_of

USAGE = (
    b"E00 usage: feast check|code|pack FILE.. | step|run WORLD FILE.. | steppack|runpack WORLD CODE | replay WORLD JOURNAL "
    b"FILE.. | audit WORLD REPORT FILE.. | rewind WORLD REPORT K FILE.. | gen N\n"
)
HELP = """usage: recheck WORLD REPORT FILE..
       recheck --step WORLD FILE..
       recheck --call VERB WORD..

Reads the element files FILE.. and the world WORLD, makes the events of the report REPORT by the meaning of the elements,
and writes `yes`, or the first thing that is wrong with the report: the line that `feast audit` writes. WORLD may be a
chain of legs (a file that begins with `chain 1`).

  --step  writes the stepped report of the world
  --call  does what `feast VERB WORD..` does, where VERB is check, step, run (on one tile), replay, audit or rewind

It shares no code with feast or the lab: docs/recheck.md.
"""


class Over(Exception):
    """The call is over with a status and what it writes."""

    def __init__(self, status: int, text: bytes) -> None:
        super().__init__(status, text)
        self.status = status
        self.text = text


def load(name: bytes, limit: int) -> bytes:
    """The bytes of a file."""
    try:
        with open(name, "rb") as file:
            data = file.read(limit + 1)
    except (OSError, ValueError):
        raise Over(3, name + b": E01 unreadable\n") from None
    if len(data) > limit:
        raise Over(3, b"%s: E02 longer than %d bytes\n" % (name, limit))
    return data


def elements_in(names: Sequence[bytes]) -> list[trees.Class]:
    """The classes of element files."""
    texts = [load(name, ELEMENT_LIMIT) for name in names]
    try:
        return read_elements(texts)
    except Refused as refused:
        file, offset = refused.spot
        line, column = line_and_column(texts[file], offset)
        raise Over(4, refusal_line(names[file], line, column, refused.code, refused.number)) from None


Read = TypeVar("Read")


def at_lines_of(status: int, name: bytes, what: Callable[[], Read]) -> Read:
    """What is read of a file; its refusals are told with the file's name."""
    try:
        return what()
    except RefusedLine as refused:
        raise Over(status, refusal_line(name, refused.line, 1, refused.code, refused.number)) from None


class Job:
    """A world or a chain with elements: its start, and what makes an event there."""

    def __init__(self, world: bytes, files: Sequence[bytes]) -> None:
        data = load(world, WORLD_LIMIT)
        self.world: Text = at_lines_of(5, world, lambda: read_world(data))
        classes = elements_in(files)
        self.names = [it.word.text for it in elements_of(classes)]
        numbers = {name: number for number, name in enumerate(self.names, 1)}
        self.grid: Grid = at_lines_of(5, world, lambda: start_of(self.world, numbers))
        self.event: Event = event_maker(classes, self.grid)
        self.is_short = self.world.journal == "short"

    def journals(self, name: bytes) -> list[Journal]:
        """The events and abandoned attempts of each leg's report."""
        data = load(name, JOURNAL_LIMIT)
        if self.world.journal == "none":
            raise Over(6, refusal_line(name, 1, 1, 80, 0))
        plans = (leg.plan for leg in self.world.legs())
        return at_lines_of(6, name, lambda: read_reports(data, self.world.plane, plans, self.is_short))


def check(files: Sequence[bytes]) -> str:
    """The layout of each class."""
    return layout_text(elements_in(files))


def made(world: bytes, files: Sequence[bytes], is_run: bool) -> str:
    """The report of the stepped run, or of the run of a plane of one tile."""
    job = Job(world, files)
    plane = job.world.plane
    if is_run and plane.tiles > 1:
        raise Over(1, b"recheck: a run of several tiles has many reports; it judges them, and makes none\n")
    texts: list[str] = []
    events = abandoned = 0
    for leg in job.world.legs():
        leg.begin(job.grid)
        if is_run:
            journal = flat_run(plane, leg.plan, job.grid, job.event)
        else:
            journal = Machine(plane, leg.plan, job.grid, job.event).run(leg.turns(plane.on))
        events, abandoned = events + len(journal.records), abandoned + len(journal.abandoned)
        if job.world.journal != "none":
            texts.append(report_text(job.grid, job.names, journal, job.is_short))
        elif leg.number % job.world.print == 0 or leg.number == job.world.last:
            texts.append(counts_text(job.grid, job.names, events, abandoned))
            events = abandoned = 0
    return "".join(texts)


def replayed(world: bytes, report: bytes, files: Sequence[bytes], first: Optional[int] = None) -> str:
    """The atoms that the events of a report leave, with all acts; or the first so many of them, with the acts before."""
    job = Job(world, files)
    journals = job.journals(report)
    total = sum(len(it.records) for it in journals)
    if first is not None and first > total:
        raise Over(6, refusal_line(report, 1, 1, 84, total))
    for leg, journal in zip(job.world.legs(), journals):
        if first == 0:
            break
        leg.begin(job.grid)
        replay(job.grid, job.event, journal.records[:first])
        first = None if first is None else max(first - len(journal.records), 0)
    return atoms_text(job.grid, job.names)


def audit(world: bytes, report: bytes, files: Sequence[bytes]) -> str:
    """The line that says whether a report is one of the world: `yes`, or the first thing that is wrong."""
    job = Job(world, files)
    for leg, journal in zip(job.world.legs(), job.journals(report)):
        leg.begin(job.grid)
        replay(job.grid, job.event, journal.records)
        wrong = wrong_in(job.world.plane, leg.plan, journal, job.grid, job.names, job.is_short)
        if wrong:
            return f"no leg {leg.number} {wrong}\n" if leg.number else f"no {wrong}\n"
    return "yes\n"


def written(words: Sequence[bytes]) -> str:
    """What a call of the program's words writes. Over with E00 if they have no form."""
    verb, *rest = words or [b""]
    first = {b"check": 0, b"step": 1, b"run": 1, b"replay": 2, b"audit": 2, b"rewind": 3}.get(verb)
    if first is None or not 1 <= len(rest) - first <= MOST_FILES or not all(map(is_text, words)):
        raise Over(2, USAGE)
    files = rest[first:]
    if verb == b"check":
        return check(files)
    if verb in (b"step", b"run"):
        return made(rest[0], files, verb == b"run")
    if verb == b"replay":
        return replayed(rest[0], rest[1], files)
    if verb == b"audit":
        return audit(rest[0], rest[1], files)
    if not re.fullmatch(rb"0|[1-9][0-9]{0,6}", rest[2]) or int(rest[2]) > MOST_ATTEMPTS:
        raise Over(2, USAGE)
    return replayed(rest[0], rest[1], files, int(rest[2]))


def is_text(word: bytes) -> bool:
    """Whether a word is UTF-8."""
    try:
        word.decode()
    except UnicodeDecodeError:
        return False
    return True


def words_of(args: Sequence[str]) -> list[bytes]:
    """The words of the program that the words of this command stand for."""
    words = [os.fsencode(arg) for arg in args]
    if words[:1] == [b"--call"]:
        return words[1:]
    if words[:1] == [b"--step"] and len(words) > 2:
        return [b"step", *words[1:]]
    if len(words) > 2 and not words[0].startswith(b"-"):
        return [b"audit", *words]
    sys.stderr.write(HELP)
    raise SystemExit(0 if words in ([b"--help"], [b"-h"]) else 2)


def answer(words: Sequence[bytes]) -> tuple[int, bytes]:
    """The status of a call, and what it writes."""
    try:
        return 0, written(words).encode()
    except Over as over:
        return over.status, over.text


def main(args: Sequence[str]) -> int:
    """The command; gives the status, which is the program's."""
    words = words_of(args)
    try:
        status, text = answer(words)
    except MemoryError:
        return 8
    try:
        with open(1, "wb", closefd=False) as out:
            out.write(text)
    except OSError:
        return 7
    return status
