"""Reports: the atoms at the end of a run, its events, and the attempts that were given up."""
import re
from collections.abc import Callable, Iterator, Sequence
from dataclasses import dataclass
from pathlib import Path
from typing import Generic, NamedTuple, TypeVar, overload

from ..base.errors import LabError
from ..base.limits import MOST_ATTEMPTS, MOST_COLUMNS
from ..base.packed import Bound, open_report, within
from .world import NAME, NUMBER, Placed

ATOM = re.compile(f"{NUMBER} {NUMBER} {NAME} [0-7][0-9a-f]{{17}}")
RECORD = re.compile(f"{NUMBER} {NUMBER} {NUMBER} {NUMBER} {NUMBER} [0-9a-f]{{16}}")
ABANDONED = re.compile(f"{NUMBER}(?: {NUMBER}){{6}}")
# No run has a longer report: 1,000,000 entries, and an atom with a name of 255 bytes at each site of the largest plane.
HEADS = 4  # lines that say what follows
LONGEST = Bound(139_000_000, MOST_COLUMNS**2 + MOST_ATTEMPTS + HEADS)
REFUSAL = re.compile(rb"(?:[^\n]*: )?E\d\d [^\n]*\n?")


def read_report(path: Path) -> bytes:
    """The bytes of a report, packed by gzip or not. Refuses one that is longer than any report, before it is held."""
    with open_report(path) as file:
        data = within(file, LONGEST)
    if data is None:
        raise LabError(f"{path}: too long for a report, which has at most {LONGEST.bytes:,} bytes and {LONGEST.lines:,} lines")
    return data


Entry = TypeVar("Entry")


class JournalRecord(NamedTuple):
    """An event: its stamp, its tile, which attempt of the tile it is, its site, and its seed."""

    stamp: int
    tile: int
    attempt: int
    x: int
    y: int
    seed: int

    @staticmethod
    def of(line: str) -> "JournalRecord":
        """The event that a line has."""
        stamp, tile, attempt, x, y, seed = line.split(" ")
        return JournalRecord(int(stamp), int(tile), int(attempt), int(x), int(y), int(seed, 16))


class Abandoned(NamedTuple):
    """An attempt that was given up: tile, attempt, site, the edge that was held, and who held it."""

    tile: int
    attempt: int
    x: int
    y: int
    edge: int
    holder: int
    holder_attempt: int

    @staticmethod
    def of(line: str) -> "Abandoned":
        """The attempt that a line has."""
        return Abandoned(*map(int, line.split(" ")))


class Entries(Sequence[Entry], Generic[Entry]):
    """Lines of a report, each taken apart when it is asked for; `lines` has them as they are."""

    def __init__(self, lines: list[str], of: Callable[[str], Entry]) -> None:
        self.lines = lines
        self.of = of

    def __len__(self) -> int:
        return len(self.lines)

    @overload
    def __getitem__(self, at: int) -> Entry: ...
    @overload
    def __getitem__(self, at: slice) -> "Entries[Entry]": ...

    def __getitem__(self, at: int | slice) -> "Entry | Entries[Entry]":
        if isinstance(at, slice):
            return Entries(self.lines[at], self.of)
        return self.of(self.lines[at])

    def __iter__(self) -> Iterator[Entry]:
        return map(self.of, self.lines)


@dataclass
class Report:
    """What a run left and how it came to it."""

    atoms: list[Placed]
    journal: Entries[JournalRecord]
    abandoned: Entries[Abandoned]

    @staticmethod
    def read(path: Path) -> "Report":
        """The report of a file, packed by gzip or not; each line is tested for its form."""
        return Report.of(path, read_report(path))

    @staticmethod
    def of(path: Path, data: bytes) -> "Report":
        """The report whose bytes a file has, or leads to; each line is tested for its form."""
        reader = ReportReader.of(path, data)
        report = reader.report(reader.atoms())
        reader.end()
        return report


def read_atoms(path: Path) -> list[Placed]:
    """The atoms of a report, or of what `replay` and `rewind` write, which is the first part of one."""
    reader = ReportReader.of(path, read_report(path))
    atoms = reader.atoms()
    if not reader.is_over:
        reader.report(atoms)
    reader.end()
    return atoms


def placed(line: str) -> Placed:
    """The atom that a line of a report has."""
    x, y, name, state = line.split(" ")
    return Placed(int(x), int(y), name, int(state, 16))


class ReportReader:
    """Reads the parts of a report, one after another."""

    def __init__(self, path: Path, lines: list[str]) -> None:
        self.path = path
        self.lines = lines
        self.at = 1
        if lines[0] != "feast 1":
            raise LabError(f"{path}:1: no report: its first line is not `feast 1`")

    @staticmethod
    def of(path: Path, data: bytes) -> "ReportReader":
        """What reads the bytes that a file has, or leads to."""
        if REFUSAL.fullmatch(data):
            raise LabError(f"{path}: no report, but the line of a call that was refused: "
                           f"{data.decode(errors='replace').strip()}")
        try:
            return ReportReader(path, data.decode("ascii").split("\n"))
        except UnicodeDecodeError as error:
            raise LabError(f"{path}: byte {error.start + 1} is no part of a report") from error

    def atoms(self) -> list[Placed]:
        """The atoms, which come first."""
        return [placed(line) for line in self.part("atoms", ATOM)]

    def report(self, atoms: list[Placed]) -> Report:
        """The report of which these atoms and the parts behind them are."""
        journal, abandoned = self.part("journal", RECORD), self.part("abandoned", ABANDONED)
        return Report(atoms, Entries(journal, JournalRecord.of), Entries(abandoned, Abandoned.of))

    def part(self, word: str, form: re.Pattern[str]) -> list[str]:
        """The lines of a part, which begins with a line that counts them."""
        head = re.fullmatch(f"{word} ({NUMBER})", self.lines[self.at]) if self.at < len(self.lines) else None
        if head is None:
            raise LabError(f"{self.path}:{self.at + 1}: no report: a line `{word} N` should stand here")
        first = self.at + 1
        self.at = first + int(head[1])
        if self.at >= len(self.lines):
            raise LabError(f"{self.path}: the report ends too early: it has fewer than {head[1]} lines of `{word}`")
        found = self.lines[first:self.at]
        if not all(map(form.fullmatch, found)):
            number, line = next((number, line) for number, line in enumerate(found, first + 1) if form.fullmatch(line) is None)
            raise LabError(f"{self.path}:{number}: no line of the part `{word}` of a report: {line[:40]}")
        return found

    @property
    def is_over(self) -> bool:
        """Whether no line follows."""
        return self.lines[self.at:] == [""]

    def end(self) -> None:
        """Refuses what follows the last part."""
        if not self.is_over:
            raise LabError(f"{self.path}:{self.at + 1}: more lines than the report counts")
