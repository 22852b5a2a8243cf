"""What the system says of the processes that run now."""
from __future__ import annotations

import os
from dataclasses import dataclass
from pathlib import Path
from typing import Iterator

TICKS = os.sysconf("SC_CLK_TCK")


@dataclass(frozen=True)
class Process:
    """A process: its folder in /proc, when it began, which tells it from later ones of its number, its session, and
    the seconds for which it had a processor, and for which those had one that it has waited for."""

    folder: Path
    begin: int
    session: int
    own: float
    waited: float

    @classmethod
    def read(cls, folder: Path) -> Process:
        """A process as it is now. OSError, IndexError or ValueError if it has ended."""
        # Behind the name, which stands in brackets: state, parent, group, session; from the twelfth on, times.
        fields = (folder / "stat").read_text(errors="replace").rpartition(")")[2].split()
        own, waited = sum(map(int, fields[11:13])), sum(map(int, fields[13:15]))
        return cls(folder, int(fields[19]), int(fields[3]), own / TICKS, waited / TICKS)

    def words(self) -> list[str]:
        """The words of its command. OSError if it has ended."""
        return [os.fsdecode(word) for word in (self.folder / "cmdline").read_bytes().split(b"\0")]


def processes() -> Iterator[Process]:
    """The processes that run now."""
    for folder in Path("/proc").iterdir():
        if folder.name.isdecimal():
            try:
                yield Process.read(folder)
            except (OSError, IndexError, ValueError):
                continue
