"""The tokens of element files, with their places."""
import re
from bisect import bisect_right
from dataclasses import dataclass
from functools import cached_property

from ...recheck.faults import Refused
from ...recheck.tokens import KEYWORDS, scanned

KINDS = ("name", "type", "number", "end")


@dataclass(frozen=True, eq=False)
class Source:
    """An element file: the word that names it, and its text, one letter for each byte, as in Latin-1."""

    name: str
    text: str

    @cached_property
    def starts(self) -> list[int]:
        """Where each line begins."""
        return [0, *(match.end() for match in re.finditer("\n", self.text))]

    def place(self, at: int) -> tuple[int, int]:
        """The line and the column of a byte; both count from 1."""
        line = bisect_right(self.starts, at)
        return line, at - self.starts[line - 1] + 1

    def byte_at(self, line: int, column: int) -> int:
        """Which byte a line and a column name: the end of the text at most."""
        start = self.starts[line - 1] if line <= len(self.starts) else len(self.text)
        return min(start + column - 1, len(self.text))


@dataclass(frozen=True, eq=False)
class Token:
    """A token; `kind` is name, type, number, sign, keyword or end, and `at` its first byte."""

    kind: str
    text: str
    at: int
    source: Source

    @property
    def end(self) -> int:
        """The byte behind it."""
        return self.at + len(self.text)

    @property
    def number(self) -> int:
        """The value of a number."""
        return int(self.text.rstrip("u"), 0)

    @property
    def place(self) -> tuple[int, int]:
        """Its line and its column."""
        return self.source.place(self.at)

    @property
    def where(self) -> str:
        """Its file, its line and its column, as a refusal names them."""
        line, column = self.place
        return f"{self.source.name}:{line}:{column}"


def tokens(source: Source) -> list[Token]:
    """The tokens of a file, up to the first place that begins none, with a token for the end behind them."""
    found: list[Token] = []
    try:
        for it in scanned(source.text, 0):
            kind = it.kind if it.kind in KINDS else "keyword" if it.kind in KEYWORDS else "sign"
            found.append(Token(kind, it.text, it.at, source))
    except Refused as refused:
        found.append(Token("end", "", refused.spot[1], source))
    return found
