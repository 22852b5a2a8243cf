"""The lines of reports, taken one after another by their rules in docs/formats.md and docs/chains.md, for the readers that are
written apart from the program (tests/hostile/reading_reports.py and tests/models/chain_reports.py)."""
from __future__ import annotations

import re
from typing import Callable, Collection, NoReturn

NUMBER = re.compile(rb"(0|[1-9][0-9]{0,19})\Z")
TYPE_NAME = re.compile(rb"[A-Z][A-Za-z0-9_]{0,254}\Z")
SEED = re.compile(rb"[0-9a-f]{16}\Z")
STATE = re.compile(rb"[0-9a-f]{18}\Z")
BAD_LINE = 80


class ReportLines:
    """The lines of a report. `refuse` refuses a line for the reason of a code."""

    def __init__(self, text: bytes, refuse: Callable[[int, int], NoReturn]) -> None:
        self.lines = text.split(b"\n")
        self.rest = self.lines.pop()
        self.at = 0
        self.refuse = refuse

    def fields(self) -> list[bytes]:
        """The fields of the next line, which has to end with LF."""
        if self.at == len(self.lines):
            self.refuse(BAD_LINE, self.at + 1)
        self.at += 1
        return self.lines[self.at - 1].split(b" ")

    def bad(self) -> NoReturn:
        """Refuses the line that was taken last."""
        self.refuse(BAD_LINE, self.at)

    def numbers(self, fields: list[bytes], wide: Collection[int] = ()) -> list[int]:
        """The numbers that fields are: below 2^32, or below 2^64 at the places `wide`."""
        if not all(map(NUMBER.match, fields)):
            self.bad()
        found = list(map(int, fields))
        if any(number >> (64 if place in wide else 32) for place, number in enumerate(found)):
            self.bad()
        return found

    def head(self, form: bytes) -> None:
        """Takes the first line of a report of a form."""
        if self.fields() != [b"feast", form]:
            self.bad()

    def count(self, title: bytes) -> int:
        """How many lines of a part follow."""
        fields = self.fields()
        if len(fields) != 2 or fields[0] != title:
            self.bad()
        return self.numbers(fields[1:])[0]

    def atom(self) -> bytes:
        """The next line, of an atom."""
        fields = self.fields()
        if len(fields) != 4 or not TYPE_NAME.match(fields[2]) or not STATE.match(fields[3]):
            self.bad()
        self.numbers(fields[:2])
        return self.lines[self.at - 1]

    def event(self, is_short: bool = False) -> list[int]:
        """The numbers of the next line, of an event: its stamp, its tile and that of its attempt, and if it isn't a short one,
        the attempt's column, row and seed."""
        fields = self.fields()
        if is_short:
            return self.numbers(fields, (2,)) if len(fields) == 3 else self.bad()
        if len(fields) != 6 or not SEED.match(fields[5]):
            self.bad()
        return [*self.numbers(fields[:5], (2,)), int(fields[5], 16)]

    def loss(self, is_short: bool = False) -> list[int]:
        """The numbers of the next line, of an abandoned attempt: its tile and number, its column and row unless it is a short
        one, and the edge with its holder and the holder's attempt."""
        fields = self.fields()
        if len(fields) != (5 if is_short else 7):
            self.bad()
        return self.numbers(fields, (1, len(fields) - 1))

    def end(self) -> None:
        """Refuses what follows."""
        if self.at < len(self.lines) or self.rest:
            self.refuse(BAD_LINE, self.at + 1)
