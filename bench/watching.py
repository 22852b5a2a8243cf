"""Watches the checks that a run of the gate makes: of which crate each is, what it is for, and what it takes.

The toolchain doesn't say what its checks take, so they are looked at while they run, in /proc. What a check does
after the last look is missed.
"""

from __future__ import annotations

from dataclasses import dataclass
from enum import Enum
from pathlib import Path
from typing import Optional, Sequence

from processes import Process, processes

# the toolchain's program that checks crates
CHECKER = "rattle"


class Part(Enum):
    """What a check is for."""

    PROOF = "proofs"
    TESTS = "tests"
    SECOND = "second proofs"
    EDIT = "edits"


@dataclass
class Check:
    """A check of a crate: what it is for, and for how many seconds it has had a processor."""

    crate: str
    part: Part
    seconds: float = 0.0


def crate_of(words: Sequence[str]) -> Optional[str]:
    """The crate that a command checks, if it checks one."""
    if Path(words[0]).name != CHECKER or "--crate-name" not in words[:-1]:
        return None
    return words[words.index("--crate-name") + 1]


class Watch:
    """The checks of a session, in the order in which they were seen."""

    def __init__(self, session: int) -> None:
        self.session = session
        self.seen: dict[tuple[Path, int], Check] = {}

    def checks(self) -> list[Check]:
        """All checks so far."""
        return list(self.seen.values())

    def look(self) -> None:
        """Takes in how far the checks are that run now."""
        for process in processes():
            if process.session == self.session:
                self.take_in(process)

    def take_in(self, process: Process) -> None:
        """Takes in how far a process is, if it is a check."""
        key = (process.folder, process.begin)
        if key not in self.seen:
            try:
                words = process.words()
            except OSError:
                return
            crate = crate_of(words)
            if crate is None:
                return
            self.seen[key] = Check(crate, self.part(crate, words))
        self.seen[key].seconds = process.own

    def part(self, crate: str, words: Sequence[str]) -> Part:
        """What a check is for. The first of a crate's edits is checked over a folder where nothing is kept yet."""
        if "--test" in words:
            return Part.TESTS
        if "--incremental" not in words:
            return Part.PROOF
        has_begun = any(it.crate == crate and it.part is Part.SECOND for it in self.seen.values())
        return Part.EDIT if has_begun else Part.SECOND
