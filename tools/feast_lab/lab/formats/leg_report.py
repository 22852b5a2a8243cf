"""Reports of the legs of a chain, one after another, as they come from the program or lie packed in a folder.

A leg has its events in full (`feast 1`), in short (`feast 2`), or only counted (`feast 3`).
"""
from collections.abc import Callable, Iterator
from dataclasses import dataclass
from functools import cached_property

from .outcome import ABANDONED, JOURNAL, count_at

HEADER = b"feast "
SHORT = b"feast 2\n"
COUNTED = b"feast 3\n"
FRONT = len(SHORT)
LONGEST_HEAD = 40  # bytes of a line that counts, at most


class CutShort(Exception):
    """What is read ends within a leg, or is no report."""


@dataclass(frozen=True)
class LegReport:
    """The report of a leg, and where in it the lines are that count its events and its abandoned attempts."""

    data: bytes
    journal: int
    abandoned: int

    @property
    def events(self) -> int:
        """How many events there were."""
        return count_at(self.data, self.journal + len(JOURNAL) - 1)

    @property
    def lost(self) -> int:
        """How many attempts were abandoned."""
        return count_at(self.data, self.abandoned + len(ABANDONED) - 1)

    @property
    def atoms(self) -> str:
        """The atoms at its end, as `replay` writes them."""
        return f"feast 1\n{self.data[FRONT:self.journal].decode()}"

    @cached_property
    def lines(self) -> list[bytes]:
        """The line of each event."""
        return self.data[self.journal:self.abandoned].splitlines()[1:]

    def records(self, since: int, upto: int) -> bytes:
        """The lines of its events from one moment to another."""
        return b"".join(line + b"\n" for line in self.lines[since:upto])

    @cached_property
    def tiles(self) -> bytes:
        """The tile of each event, as a byte."""
        lines = self.lines
        if not lines:
            return b""
        fields = b" ".join(lines).split(b" ")
        names = fields[1::len(fields) // len(lines)]
        numbers = {name: int(name) for name in set(names)}
        return bytes(map(numbers.__getitem__, names))

    @property
    def journal_lines(self) -> list[str]:
        """The lines of its events."""
        return self.data[self.journal:self.abandoned].decode().splitlines()[1:]

    @property
    def abandoned_lines(self) -> list[str]:
        """The lines of its abandoned attempts."""
        return self.data[self.abandoned:].decode().splitlines()[1:]

    def counted(self) -> "LegReport":
        """The same with its events and its abandoned attempts only counted."""
        head = self.data[self.journal:self.data.index(b"\n", self.journal) + 1]
        data = COUNTED + self.data[FRONT:self.journal] + head + self.data[self.abandoned:self.data.index(b"\n", self.abandoned) + 1]
        return LegReport(data, self.journal, self.journal + len(head))


class LegReader:
    """Takes legs apart that come in pieces. `read` gives the next piece, and an empty one at the end."""

    def __init__(self, read: Callable[[], bytes]) -> None:
        self.read = read
        self.held = bytearray()

    def legs(self) -> Iterator[LegReport]:
        """Each leg as soon as its last byte is there. CutShort is raised if something else comes."""
        while self.held or self.more():
            while len(self.held) < FRONT and self.more():
                pass
            if not self.held.startswith(HEADER):
                raise CutShort
            journal = self.find(JOURNAL, 0) + 1
            abandoned = self.find(ABANDONED, journal) + 1
            behind = self.find(b"\n", abandoned) + 1
            if behind - abandoned > LONGEST_HEAD:
                raise CutShort
            count = 0 if self.held.startswith(COUNTED) else int(self.held[abandoned + len(ABANDONED) - 1:behind])
            end = self.after_lines(behind, count)
            data = bytes(memoryview(self.held)[:end])
            del self.held[:end]
            yield LegReport(data, journal, abandoned)

    def take_rest(self) -> None:
        """Takes all that still comes."""
        while self.more():
            pass

    def more(self) -> bool:
        """Takes the next piece; whether there was one."""
        piece = self.read()
        self.held += piece
        return bool(piece)

    def find(self, what: bytes, since: int) -> int:
        """Where something begins that has to come."""
        while (at := self.held.find(what, since)) < 0:
            since = max(since, len(self.held) - len(what) + 1)
            if not self.more():
                raise CutShort
        return at

    def after_lines(self, begin: int, count: int) -> int:
        """Where so many lines end that begin at a byte."""
        lines, at = 0, begin
        while True:
            last = self.held.rfind(b"\n", at) + 1
            if last > at:
                found = self.held.count(b"\n", at, last)
                if lines + found >= count:
                    break
                lines, at = lines + found, last
            elif count == lines:
                return at
            if not self.more():
                raise CutShort
        for _ in range(count - lines):
            at = self.held.index(b"\n", at) + 1
        return at


def legs_of(data: bytes) -> list[LegReport]:
    """The legs whose reports follow one another. CutShort is raised if something else does."""
    pieces = iter([data, b""])
    return list(LegReader(lambda: next(pieces)).legs())
