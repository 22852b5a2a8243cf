"""Files that may be packed by gzip, read in one piece. What strangers send may unpack without end, so each has its bound."""
import gzip
import zlib
from collections.abc import Iterator
from contextlib import contextmanager
from dataclasses import dataclass
from pathlib import Path
from typing import BinaryIO, cast

from .errors import LabError
from .files import GZIP_MAGIC, cause

PIECE = 1 << 20  # bytes that are held while a file is measured


@dataclass(frozen=True)
class Bound:
    """How many bytes and lines a file may have."""

    bytes: int
    lines: int

    def admits(self, file: BinaryIO) -> bool:
        """Whether what follows in a file is within it; no more than a piece of that is held."""
        size = lines = 0
        while size <= self.bytes and lines <= self.lines and (piece := file.read(PIECE)):
            size += len(piece)
            lines += piece.count(b"\n")
        return size <= self.bytes and lines <= self.lines


@contextmanager
def unpacking(name: object, kind: str) -> Iterator[None]:
    """Tells in one line that a packed file of a kind can't be unpacked, or read."""
    try:
        yield
    except (EOFError, zlib.error, gzip.BadGzipFile) as error:
        raise LabError(f"{name}: the packed {kind} is damaged or cut short") from error
    except OSError as error:
        raise LabError(f"{name}: can't be read: {cause(error)}") from error


@contextmanager
def unpacked(file: BinaryIO) -> Iterator[BinaryIO]:
    """What a file has, unpacked if it was packed by gzip, whatever its name."""
    is_packed = file.read(len(GZIP_MAGIC)) == GZIP_MAGIC
    file.seek(0)
    if is_packed:
        with gzip.open(file) as inside:
            yield cast(BinaryIO, inside)
    else:
        yield file


@contextmanager
def open_report(path: Path) -> Iterator[BinaryIO]:
    """A report to read from, unpacked if it was packed by gzip."""
    with unpacking(path, "report"), path.open("rb") as file, unpacked(file) as inside:
        yield inside


def within(file: BinaryIO, bound: Bound) -> bytes | None:
    """All that a file has; None if that isn't within a bound, and then none of it was kept."""
    file.seek(0)
    if not bound.admits(file):
        return None
    file.seek(0)
    return file.read(bound.bytes)
