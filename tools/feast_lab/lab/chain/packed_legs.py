"""What is kept of the legs of a chain: their reports, packed, in a file to which is only added, with an index beside it.

Legs that are made within a moment, or are small, are packed together by gzip. One such pack behind another is a file that
gzip unpacks as a whole, so `zcat legs.gz` writes the report of the chain. The index has a line for each pack:

    LEG END BYTES    the last leg that was done with it, where it ends in the file, and how many bytes it has unpacked

With its line a pack is done, and the legs with it. What the file, the course and the index have behind the last whole line
belongs to legs that were not done, and is dropped when the chain goes on. Of a chain that keeps no reports the packs have
each N-th leg, with its events only counted; so a pack may have none, and then no byte.
"""
import gzip
import os
import re
import zlib
from bisect import bisect_left
from collections.abc import Iterator
from dataclasses import dataclass, field
from pathlib import Path

from ..base.errors import LabError
from ..base.files import cause, read_text
from ..base.limits import LONGEST_NAME, MOST_ATTEMPTS
from ..formats.leg_report import CutShort, LegReport, legs_of

PACKS = "legs.gz"
INDEX = "legs.index"
LEVEL = 1  # of gzip
LINE = re.compile(r"(\d{1,10}) (\d{1,15}) (\d{1,10})\n", re.ASCII)
MOST_WAITING = 1 << 22  # bytes of the legs that are packed together, but for the last of them
LONGEST_ATOM = 8 + LONGEST_NAME + 20  # bytes of the line of an atom: its site, its name and its state
LONGEST_ENTRY = 32  # of the short line of an event or of an abandoned attempt


@dataclass(frozen=True)
class Pack:
    """Legs that were done together: the last before them, the last of them, and where they are in the file."""

    before: int
    last: int
    begin: int
    end: int
    size: int

    @property
    def told(self) -> str:
        """Its legs in words."""
        return f"the legs from {self.before + 1} to {self.last}"


@dataclass
class PackedLegs:
    """The legs of a folder, of which each N-th is kept."""

    folder: Path
    every: int
    packs: list[Pack] = field(default_factory=list)

    @staticmethod
    def of(folder: Path, every: int, sites: int) -> "PackedLegs":
        """What the index says. Refuses a pack that is longer than any of a plane with so many sites."""
        found, longest = PackedLegs(folder, every), MOST_WAITING + sites * LONGEST_ATOM + MOST_ATTEMPTS * LONGEST_ENTRY
        path = folder / INDEX
        for number, line in enumerate(read_text(path).splitlines(keepends=True), 1):
            match = LINE.fullmatch(line)
            if match is None and not line.endswith("\n"):
                break  # what a kill cut short
            last, end, size = map(int, match.groups()) if match is not None else (0, 0, 0)
            if last <= found.done or end < found.end or size > longest:
                raise LabError(f"{path}:{number}: no line of an index")
            found.packs.append(Pack(found.done, last, found.end, end, size))
        return found

    @property
    def done(self) -> int:
        """How many legs are done."""
        return self.packs[-1].last if self.packs else 0

    @property
    def end(self) -> int:
        """Where the last pack ends."""
        return self.packs[-1].end if self.packs else 0

    def keeps(self, leg: int) -> bool:
        """Whether a leg is kept."""
        return leg % self.every == 0

    def line(self) -> str:
        """The line of the last pack."""
        pack = self.packs[-1]
        return f"{pack.last} {pack.end} {pack.size}\n"

    def text(self) -> str:
        """The index."""
        return "".join(f"{pack.last} {pack.end} {pack.size}\n" for pack in self.packs)

    def add(self, last: int, packed: int, size: int) -> None:
        """Notes a pack of so many bytes, packed and unpacked, with which the legs up to the last are done."""
        self.packs.append(Pack(self.done, last, self.end, self.end + packed, size))

    def kept(self, pack: Pack) -> list[int]:
        """The numbers of the legs that a pack has."""
        return list(range((pack.before // self.every + 1) * self.every, pack.last + 1, self.every))

    def packed_data(self, pack: Pack) -> bytes:
        """A pack as the file has it."""
        path = self.folder / PACKS
        try:
            with path.open("rb") as file:
                return os.pread(file.fileno(), pack.end - pack.begin, pack.begin)
        except OSError as error:
            raise LabError(f"{path}: can't be read: {cause(error)}") from error

    def data(self, pack: Pack) -> bytes:
        """What a pack has, unpacked."""
        try:
            return unpacked(self.packed_data(pack), pack.size)
        except (EOFError, zlib.error) as error:
            raise LabError(f"{self.folder / PACKS}: it is damaged or cut short, at {pack.told}") from error

    def legs(self, pack: Pack) -> dict[int, LegReport]:
        """The legs that a pack has."""
        numbers = self.kept(pack)
        try:
            found = legs_of(self.data(pack))
        except (CutShort, ValueError) as error:
            raise LabError(f"{self.folder / PACKS}: no reports, at {pack.told}") from error
        if len(found) != len(numbers):
            raise LabError(f"{self.folder / PACKS}: it has {len(found)} of {pack.told}, and should have {len(numbers)}")
        return dict(zip(numbers, found, strict=True))

    def pack_of(self, leg: int) -> Pack:
        """The pack with which a leg was done."""
        return self.packs[bisect_left(self.packs, leg, key=lambda pack: pack.last)]

    def report(self, leg: int) -> LegReport:
        """The report of a leg that is kept."""
        return self.legs(self.pack_of(leg))[leg]

    def all(self, first: int = 1) -> Iterator[tuple[int, LegReport]]:
        """The legs that are kept, from the first on, each with its number."""
        for pack in self.packs:
            if pack.last >= first:
                yield from ((leg, report) for leg, report in self.legs(pack).items() if leg >= first)


def packed(data: bytes) -> bytes:
    """A pack of this; nothing if there is nothing."""
    return gzip.compress(data, LEVEL, mtime=0) if data else b""


def unpacked(packed: bytes, size: int) -> bytes:
    """What a pack has, of which it is known how many bytes that are. EOFError is raised if there are others."""
    if size == 0 and not packed:
        return b""
    opened = zlib.decompressobj(wbits=31)
    found = opened.decompress(packed, size + 1)
    if len(found) != size or not opened.eof or opened.unused_data:
        raise EOFError
    return found
