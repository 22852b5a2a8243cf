"""Maps of the plane: drawings in letters, and patterns in Golly's RLE."""
import io
import re
import sys
from collections.abc import Iterator
from dataclasses import dataclass
from pathlib import Path

from ..base.errors import LabError
from ..base.files import read_bytes
from ..base.packed import Bound, unpacked, unpacking, within

HEADER = re.compile(r"\s*x\s*=\s*(\d+)\s*,\s*y\s*=\s*(\d+)\s*(?:,\s*rule\s*=\s*(\S.*?)\s*|,.*)?")
RUN = re.compile(r"\s*(?:(\d*)\s*([p-y]?[A-X]|[.bo$!])|(\d*\s*\S))")
EMPTY_IN_RLE = (".", "b")
EMPTY_IN_LETTERS = (".", " ")
STANDARD_INPUT = Path("-")
LONGEST = Bound(1 << 26, 1 << 20)  # of a map
DIGITS = 20  # at most so many of a number in RLE
LIFE = ("b3/s23", "s23/b3", "23/3", "life")  # the names of the rule of the Game of Life
# what a form that isn't read begins with, the endings of its files, and its name
OTHER_FORMS = (("[M2]", (".mc",), "a macrocell file"), ("#Life 1.0", (".lif", ".life"), "a pattern in the form Life 1.05 or 1.06"))


@dataclass(frozen=True)
class DrawnSymbol:
    """A symbol at a place of a map."""

    x: int
    y: int
    symbol: str


@dataclass(frozen=True)
class Drawing:
    """The symbols of a map that aren't empty, one by one, and which symbols are empty in it.

    `box` is how wide and high a pattern in RLE says that it is, and `rule` the rule that it names.
    """

    name: str
    empty: tuple[str, str]
    marks: Iterator[DrawnSymbol]
    box: tuple[int, int] | None = None
    rule: str | None = None

    @staticmethod
    def read(path: Path) -> "Drawing":
        """The map of a file, or of standard input: in RLE if it has the header of such a pattern, else in letters."""
        name = "standard input" if path == STANDARD_INPUT else str(path)
        text = text_of(path, name)
        lines = [line.removesuffix("\r") for line in text.split("\n")]
        for number, line in enumerate(lines):
            header = HEADER.fullmatch(line)
            if header is not None:
                marks = runs(name, lines[number + 1:])
                return Drawing(name, EMPTY_IN_RLE, marks, (int(header[1]), int(header[2])), header[3])
            if line.strip() and not line.startswith("#"):
                break
        refuse_other_forms(path, name, text)
        return Drawing(name, EMPTY_IN_LETTERS, letters(lines))

    def warnings(self, places: list[tuple[int, int]]) -> Iterator[str]:
        """What a user should know of a map with symbols at these places."""
        if self.rule is not None and self.rule.lower() not in LIFE:
            yield f"the pattern is made for the rule {self.rule}, and not for B3/S23; its atoms do what their element says"
        wide, high = self.box or (0, 0)
        beyond = sum(x >= wide or y >= high for x, y in places)
        if self.box is not None and beyond:
            yield f"{beyond} of its cells lie beyond the {wide} columns and {high} rows of its first line; they are painted too"


def text_of(path: Path, name: str) -> str:
    """The text of a map, unpacked if it was packed by gzip, without a byte order mark."""
    given = sys.stdin.buffer.read(LONGEST.bytes + 1) if path == STANDARD_INPUT else read_bytes(path)
    with unpacking(name, "map"), unpacked(io.BytesIO(given)) as file:
        data = within(file, LONGEST)
    if data is None:
        raise LabError(f"{name}: too long for a map, which has at most {LONGEST.bytes:,} bytes and {LONGEST.lines:,} lines")
    try:
        return data.decode("utf-8-sig")
    except UnicodeDecodeError as error:
        raise LabError(f"{name}: byte {error.start + 1} is no part of a text in UTF-8") from error


def refuse_other_forms(path: Path, name: str, text: str) -> None:
    """Refuses the other forms in which programs for the Game of Life keep patterns."""
    suffix = Path(path.name.removesuffix(".gz")).suffix
    for front, suffixes, form in OTHER_FORMS:
        if text.startswith(front) or suffix in suffixes:
            raise LabError(f"{name}: {form}, which is not read; open it in Golly and save it as RLE")


def letters(lines: list[str]) -> Iterator[DrawnSymbol]:
    """The symbols of a drawing in letters, a row a line."""
    for y, line in enumerate(lines):
        yield from (DrawnSymbol(x, y, symbol) for x, symbol in enumerate(line) if symbol not in EMPTY_IN_LETTERS)


def runs(name: str, lines: list[str]) -> Iterator[DrawnSymbol]:
    """The symbols of a pattern in RLE, which counts cells and rows; `!` ends it."""
    x = y = 0
    text = "\n".join(line for line in lines if not line.startswith("#"))
    for match in RUN.finditer(text):
        symbol = match[2] if len(match[1] or "") <= DIGITS else None
        if symbol is None:
            raise LabError(f"{name}: {match[0].strip()[:DIGITS + 2]} is no part of a pattern in RLE")
        times = int(match[1] or 1)
        if symbol == "!":
            return
        if symbol == "$":
            x, y = 0, y + times
            continue
        if symbol not in EMPTY_IN_RLE:
            yield from (DrawnSymbol(x + at, y, symbol) for at in range(times))
        x += times
    raise LabError(f"{name}: the pattern has no end: a `!` is missing")
