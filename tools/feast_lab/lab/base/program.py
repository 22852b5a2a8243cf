"""The program that the lab calls."""
import fcntl
import os
import subprocess
import tempfile
from collections.abc import Iterator, Sequence
from contextlib import contextmanager
from dataclasses import dataclass
from pathlib import Path

from ...proved.found import NotFound, find

from .errors import LabError

PACKAGE = Path(__file__).resolve().parents[2]
# The clone or the released folder; where the package is installed, what the lab needs of these lies in the package.
TOP = PACKAGE if (PACKAGE / "VERSION").exists() else PACKAGE.parents[1]
SOURCES = TOP / "crates.txt"
# The program of a released folder, which has no sources.
RELEASED = TOP / "bin" / "feast"
INSTEAD = "FEAST_PROGRAM"
PIECE = 1 << 20  # bytes that a pipe may hold, where the system lets it
QUIET = {7: "it could not write its output", 8: "it ran out of memory"}


class Refusal(LabError):
    """The line with which the program refused a call."""


@dataclass(frozen=True)
class Answer:
    """What a call of the program wrote; its status was 0."""

    output: bytes

    @property
    def text(self) -> str:
        """What the call wrote, as text."""
        return self.output.decode()


@dataclass(frozen=True)
class Program:
    """A built program."""

    path: Path

    @staticmethod
    def find() -> "Program":
        """The program that `./feast` would run: one that was proved of the sources of this clone, or the one of a released
        folder, unless FEAST_PROGRAM names another."""
        instead = os.environ.get(INSTEAD)
        if instead:
            if not os.access(instead, os.X_OK):
                raise LabError(f"{instead}: {INSTEAD} names it, and it is no program")
            return Program(Path(instead).resolve())
        if not SOURCES.exists():
            return Program(RELEASED)
        try:
            return Program(find(TOP))
        except NotFound as why:
            raise LabError(f"no program was proved of the sources of {TOP}: {why}; ./feast --prove makes one") from None

    def call(self, words: Sequence[str | Path], cwd: Path | None = None) -> Answer:
        """Calls the program on words; what it refuses is raised as its own line."""
        with tempfile.TemporaryFile() as output:  # no pipe, so that nothing waits for what other threads of the lab do
            done = subprocess.run([self.path, *words], cwd=cwd, stdin=subprocess.DEVNULL, stdout=output, check=False)
            output.seek(0)
            written = output.read()
        if done.returncode != 0:
            raise Refusal(reason(done.returncode, written))
        return Answer(written)

    @contextmanager
    def stream(self, words: Sequence[str | Path]) -> Iterator["Stream"]:
        """Calls the program, and gives what it writes while it writes; a call that nobody reads to its end is ended."""
        with subprocess.Popen([self.path, *words], stdin=subprocess.DEVNULL, stdout=subprocess.PIPE) as process:
            assert process.stdout is not None
            widen(process.stdout.fileno())
            try:
                yield Stream(process)
            finally:
                process.kill()


@dataclass(frozen=True)
class Stream:
    """What a call of the program writes, while it is still at work."""

    process: "subprocess.Popen[bytes]"

    def read(self) -> bytes:
        """What has come, once something has; nothing at the end."""
        assert self.process.stdout is not None
        return os.read(self.process.stdout.fileno(), PIECE)

    def end(self, rest: bytes) -> None:
        """Waits for the end of a call that writes no more; `rest` is what can't be told apart. Refuses a status that isn't 0."""
        status = self.process.wait()
        if status != 0:
            raise Refusal(reason(status, rest))


def widen(pipe: int) -> None:
    """Lets a pipe hold more, so that who writes and who reads wait less for each other."""
    try:
        fcntl.fcntl(pipe, fcntl.F_SETPIPE_SZ, PIECE)
    except (AttributeError, OSError):
        pass  # another system, or a limit for this user


def reason(status: int, output: bytes) -> str:
    """Why a call ended with a status that isn't 0."""
    if status in QUIET:
        return f"the program ended with status {status}: {QUIET[status]}"
    if status < 0:
        return f"the program was ended by signal {-status}"
    return output.decode(errors="replace").strip() or f"the program ended with status {status}"
