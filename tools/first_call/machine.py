"""What the machine has: memory, processors, and processes that are started and ended with all that they start."""
from __future__ import annotations

import os
import re
import signal
import subprocess
from collections.abc import Iterable, Sequence
from contextlib import suppress
from pathlib import Path
from typing import IO

# How long a process has to end by itself, in seconds.
PATIENCE = 8.0
# How many kilobytes the proof of a crate wants.
EACH = 3_000_000


class Child(subprocess.Popen[bytes]):
    """A command in a session of its own, which takes no input. Its errors go where its output goes, unless a file is given
    for them."""

    def __init__(self, words: Sequence[str], folder: Path, out: IO[bytes] | int, err: IO[bytes] | int = subprocess.STDOUT) -> None:
        super().__init__(words, cwd=folder, stdin=subprocess.DEVNULL, stdout=out, stderr=err, start_new_session=True)

    def tell(self, number: int) -> None:
        """Sends a signal to the command and all that it started."""
        with suppress(ProcessLookupError):
            os.killpg(self.pid, number)


def end(children: Iterable[Child]) -> None:
    """Ends commands and all that they started, in peace if that serves; of one that has ended by itself, what it left."""
    begun = list(children)
    for child in begun:
        child.tell(signal.SIGTERM)
    for child in begun:
        with suppress(subprocess.TimeoutExpired):
            child.wait(PATIENCE)
        child.tell(signal.SIGKILL)
        child.wait()


def lanes_here() -> int:
    """How many crates can be proved side by side: one a processor, if there is memory for each."""
    free = re.search(r"^MemAvailable:\s+(\d+)", Path("/proc/meminfo").read_text(), re.M)
    return max(min(len(os.sched_getaffinity(0)), int(free[1]) // EACH if free else 0), 1)
