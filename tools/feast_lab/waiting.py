"""How long a call may take, and who hears how far a work is."""
import subprocess
import tempfile
import time
from collections.abc import Callable, Sequence
from contextlib import suppress
from pathlib import Path

from .lab.base.errors import LabError
from .lab.base.program import Program, Refusal, reason
from .lab.base.progress import Progress, ProgressLine, duration

Hearer = bool | Callable[[float, str], object]  # whether a line on standard error tells how far it is, or a function that does
LOOKS_EVERY = 0.2  # seconds between two looks at a call


class Heard(Progress):
    """Tells a function how much is done, from 0 to 1, and what is at work."""

    def __init__(self, tell: Callable[[float, str], object]) -> None:
        self.tell = tell
        self.total = 1.0

    def begin(self, total: float, done: float = 0) -> None:
        """Takes in how much there is to do."""
        self.total = max(total, 1)

    def at(self, done: float, part: str) -> None:
        """Tells it."""
        self.tell(done / self.total, part)


class Running(ProgressLine):
    """Tells in one line for how long something has run of which nobody knows how far it is."""

    def at(self, done: float, part: str) -> None:
        """Writes the line, if it is time for it."""
        now = time.monotonic()
        if now >= self.next:
            self.next = now + self.every
            line = f"{part}: running for {duration(now - self.began)}"
            self.to.write(f"\r{line}\x1b[K" if self.is_terminal else f"{line}\n")
            self.to.flush()
            self.is_open = self.is_terminal


def reporter(progress: Hearer) -> Progress:
    """What hears how far a work is."""
    if callable(progress):
        return Heard(progress)
    return ProgressLine() if progress else Progress()


def called(program: Program, words: Sequence[str | Path], what: str, timeout: float | None, progress: Hearer) -> bytes:
    """What a call of the program writes. LabError if it takes more than so many seconds; then it is ended."""
    if timeout is not None and not timeout > 0:
        raise LabError(f"timeout={timeout}: it has to be more than 0 seconds")
    told = Running() if progress is True else reporter(progress)
    ends = None if timeout is None else time.monotonic() + timeout
    with tempfile.TemporaryFile() as output:
        process = subprocess.Popen([program.path, *words], stdin=subprocess.DEVNULL, stdout=output)
        try:
            while process.poll() is None:
                left = LOOKS_EVERY if ends is None else min(LOOKS_EVERY, ends - time.monotonic())
                if left <= 0:
                    raise LabError(f"{what}: it took more than {timeout:g} seconds, and was ended")
                with suppress(subprocess.TimeoutExpired):
                    process.wait(left)
                told.at(0, what)
            told.at(1, what)
        finally:
            process.kill()
            process.wait()
            told.end()
        output.seek(0)
        written = output.read()
    if process.returncode != 0:
        raise Refusal(reason(process.returncode, written))
    return written
