"""Where a proved program of a clone may lie, which one is taken, and what is kept of that for the next call.

A program is taken if its record has the digest of the sources that lie there: one that was proved in this clone goes
before the one of dist/. To read all sources takes a tenth of a second. So the line of `listing.sh` is kept with what was
taken, and as long as it is the same, the program is the same.
"""
from __future__ import annotations

import hashlib
import os
import subprocess
import sys
import time
from contextlib import suppress
from dataclasses import dataclass
from pathlib import Path

from .record import NAME, Record, digest_of
from .sources import SourcesError, digest, names

KEPT = "crates/feast/out/found"
LISTING = Path(__file__).resolve().with_name("listing.sh")
NOTHING = f"{hashlib.sha256().hexdigest()}  -"
# How often, and after how many seconds, it is looked again whether nothing changes any more.
TRIES, PAUSE = 30, 0.1
# In nanoseconds, how long after a mark a time still is one of the clock that gave the mark its time.
RECENT = 10_000_000_000


class NotFound(Exception):
    """Why no program of a clone may be run, as a reader is told."""


@dataclass(frozen=True)
class Place:
    """A place of a program, with its record beside it."""

    program: str

    @property
    def record(self) -> str:
        """The place of its record."""
        return str(Path(self.program).with_name(NAME))

    def fault(self, top: Path, sources: str) -> str | None:
        """Why the program here isn't one of sources with this digest that can be run."""
        record = Record.read(top / self.record)
        if record is None:
            return f"there is no {self.record}" if not (top / self.record).exists() else f"{self.record} can't be read"
        if record.sources != sources:
            return f"{self.record} is of other sources than lie here"
        if digest_of(top / self.program) != record.program:
            return f"{self.program} is not the program that {self.record} names"
        if not os.access(top / self.program, os.X_OK):
            return f"{self.program} can't be executed"
        return None


BUILT, DIST = Place("crates/feast/out/feast"), Place("dist/feast")


def find(top: Path) -> Path:
    """The program that is run in a clone. NotFound if there is none that was proved of the sources that lie there."""
    return top / (kept(top) or chosen(top)).program


def kept(top: Path) -> Place | None:
    """The place that an earlier call kept, if nothing has changed since."""
    with suppress(OSError, ValueError):
        line, program = (top / KEPT).read_text().splitlines()
        if line == listing(top):
            return next((it for it in (BUILT, DIST) if it.program == program), None)
    return None


def listing(top: Path) -> str:
    """The line of listing.sh."""
    return subprocess.run(["sh", LISTING], cwd=top, capture_output=True, text=True, check=False).stdout.strip()


def chosen(top: Path) -> Place:
    """The place that the sources and the records lead to, which is kept. NotFound if there is none."""
    try:
        place = settled(top)
    except SourcesError as why:
        raise NotFound(str(why)) from None
    record = Record.read(top / place.record)
    if place == DIST and record:
        sys.stderr.write(f"feast: the program of dist/, proved of these sources with {record.kit}; "
                         "./feast --prove proves it here\n")
    return place


def settled(top: Path) -> Place:
    """The same, looked for until nothing was changed meanwhile, nor so shortly before that a change after it could bear
    the same time. It isn't kept if that doesn't come, or where nothing can be written."""
    try:
        with Mark(top) as mark:
            for _ in range(TRIES):
                mark.renew()
                line, place = listing(top), taken(top, digest(top))
                if line == NOTHING:
                    break
                if not any(map(mark.is_recent, times(top))) and listing(top) == line:
                    mark.keep(f"{line}\n{place.program}\n")
                    break
                time.sleep(PAUSE)
            return place
    except OSError:
        return taken(top, digest(top))


def taken(top: Path, sources: str) -> Place:
    """The first place whose program is one of sources with this digest. NotFound if none is."""
    faults = {place: place.fault(top, sources) for place in (BUILT, DIST)}
    for place, fault in faults.items():
        if fault is None:
            return place
    raise NotFound(f"{faults[DIST]}")


def times(top: Path) -> list[int]:
    """When each source, program and record was last changed, in nanoseconds."""
    paths = [os.fsdecode(name) for name in names(top)]
    paths += [path for place in (BUILT, DIST) for path in (place.program, place.record) if (top / path).exists()]
    return [os.lstat(top / path).st_ctime_ns for path in paths]


class Mark:
    """A new file beside what is kept, with the time that the file system gave it; it goes away unless it is kept.
    OSError if it can't be written."""

    def __init__(self, top: Path) -> None:
        self.path = (top / KEPT).with_name(f".found.{os.getpid()}")

    def __enter__(self) -> Mark:
        self.path.parent.mkdir(exist_ok=True)
        self.path.touch()
        self.renew()
        return self

    def __exit__(self, *_: object) -> None:
        self.path.unlink(missing_ok=True)

    def renew(self) -> None:
        """Gives the file the time that it is now."""
        os.utime(self.path)
        self.time = self.path.stat().st_ctime_ns

    def is_recent(self, time: int) -> bool:
        """Whether a time is the file's own or shortly after it; one far ahead is of a clock that was set back since."""
        return 0 <= time - self.time < RECENT

    def keep(self, text: str) -> None:
        """Puts a text in the place of what is kept, whole."""
        self.path.write_text(text)
        os.replace(self.path, self.path.with_name(Path(KEPT).name))
