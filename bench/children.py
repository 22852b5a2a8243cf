"""Calls that end with the program that makes them, and all that they start with them."""

from __future__ import annotations

import signal
import subprocess
import sys
from pathlib import Path
from typing import IO, Sequence

sys.path.insert(0, str(Path(__file__).resolve().parent.parent / "tools"))
from first_call.machine import Child, end  # noqa: E402

ENDING = (signal.SIGINT, signal.SIGTERM, signal.SIGHUP)


def end_in_order() -> None:
    """Has the signals that end this program do so by SystemExit, so that calls under way are ended, and folders removed.
    Those that it was started to ignore stay ignored, and so do further ones."""

    def leave(number: int, _: object) -> None:
        for other in ENDING:
            signal.signal(other, signal.SIG_IGN)
        sys.exit(128 + number)

    for number in ENDING:
        if signal.getsignal(number) != signal.SIG_IGN:
            signal.signal(number, leave)


def called(
    words: Sequence[str | Path],
    folder: Path | None = None,
    out: IO[bytes] | int = subprocess.PIPE,
    err: IO[bytes] | int = subprocess.PIPE,
    timeout: float | None = None,
) -> subprocess.CompletedProcess[bytes]:
    """A call, with what it wrote if that goes nowhere else. TimeoutExpired if it takes longer than so many seconds."""
    with Child([str(word) for word in words], folder or Path.cwd(), out, err) as child:
        try:
            wrote, said = child.communicate(timeout=timeout)
        finally:
            end([child])
    return subprocess.CompletedProcess(words, child.returncode, wrote, said)
