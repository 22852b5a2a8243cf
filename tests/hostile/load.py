"""How much of the processors other work had meanwhile, so that a neighbour's work is not taken for the program's fault."""
from __future__ import annotations

import os
import pathlib
import time
from dataclasses import dataclass

STAT = pathlib.Path("/proc/stat")
# Where the system counts what its processors did, in ticks: as user, nice, system, interrupts (two), and what a machine
# beside this virtual one took. Idle time and waiting for disks are between them.
WORKED = (0, 1, 2, 5, 6, 7)
TICKS = os.sysconf("SC_CLK_TCK")
# What others may have of the processors on a machine that counts as quiet.
QUIET = 0.1


def worked() -> float:
    """How many seconds all processors together have worked since the machine began; 0 where the system doesn't say."""
    try:
        counts = STAT.read_text().split("\n", 1)[0].split()[1:]
        return sum(int(counts[place]) for place in WORKED) / TICKS
    except (OSError, IndexError, ValueError):
        return 0.0


@dataclass(frozen=True)
class Meter:
    """A moment: when it was, and what the processors had done by then."""

    time: float
    worked: float

    @classmethod
    def now(cls) -> Meter:
        """This moment."""
        return cls(time.monotonic(), worked())

    def others(self, own: float) -> float:
        """The part of all processors that others had since then, where the calls of one took so many seconds of them."""
        passed = max(time.monotonic() - self.time, 1 / TICKS)
        return max(0.0, (worked() - self.worked - own) / passed / (os.cpu_count() or 1))
