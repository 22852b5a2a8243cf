"""Calls of the program as a hostile user makes them, and what they came to.

A `Bench` has the program and a folder for its inputs. It counts what held and keeps what did not.
"""
from __future__ import annotations

import os
import pathlib
import resource
import shutil
import signal
import subprocess
import sys
import tempfile
import time
from dataclasses import dataclass
from typing import IO, Callable, Iterable, Mapping, NamedTuple, Optional, Sequence, Union

USAGE = (
    b"E00 usage: feast check|code|pack FILE.. | step|run WORLD FILE.. | steppack|runpack WORLD CODE"
    b" | replay WORLD JOURNAL FILE.. | audit WORLD REPORT FILE.. | rewind WORLD REPORT K FILE.. | gen N\n"
)

DONE, NO_FORM, UNREADABLE, BAD_ELEMENT, BAD_WORLD, BAD_JOURNAL, SINK, MEMORY, BAD_CODE = 0, 2, 3, 4, 5, 6, 7, 8, 9

# How many bytes of what a call wrote are kept; the rest stays in its file.
KEPT = 4 << 20

Word = Union[str, bytes]


def bytes_of(word: Word) -> bytes:
    """The bytes of a word."""
    return word if isinstance(word, bytes) else word.encode()


@dataclass(frozen=True)
class Answer:
    """How a call ended: its status (below 0: the signal that ended it), the first bytes that it wrote and
    how many it wrote, the seconds of processor time that it took, the most memory that it had, in
    bytes, and for how many seconds its first thread was ready while no processor was free for it."""

    status: int
    out: bytes
    size: int
    seconds: float
    memory: int
    delay: float

    def shown(self) -> str:
        """The status, and the ends of what was written, to be read."""
        out = self.out if len(self.out) < 160 else self.out[:120] + b" .. " + self.out[-30:]
        return f"status {self.status}, {self.size} bytes {out!r}"


class Ended(NamedTuple):
    """How a child ended, and what it used."""

    status: int
    used: resource.struct_rusage
    delay: float

    def answer(self, out: bytes, size: int) -> Answer:
        """The answer of a call that wrote so many bytes, of which these are the first."""
        seconds = self.used.ru_utime + self.used.ru_stime
        return Answer(self.status, out, size, seconds, self.used.ru_maxrss * 1024, self.delay)


@dataclass(frozen=True)
class Limits:
    """What a call is given: an address space, a stack, the size of a written file and the number of open
    files, each in the units of `setrlimit`; whether a write past a limit or to nobody is no signal; and
    what else is done in its process before it begins."""

    space: Optional[int] = None
    stack: Optional[int] = None
    written: Optional[int] = None
    files: Optional[int] = None
    quiet: bool = True
    then: Optional[Callable[[], object]] = None

    def set(self) -> None:
        """Sets them for this process, which becomes the program."""
        for what, value in (
            (resource.RLIMIT_STACK, self.stack),
            (resource.RLIMIT_FSIZE, self.written),
            (resource.RLIMIT_NOFILE, self.files),
            (resource.RLIMIT_AS, self.space),
        ):
            if value is not None:
                resource.setrlimit(what, (value, value))
        if self.quiet:
            signal.signal(signal.SIGXFSZ, signal.SIG_IGN)
            signal.signal(signal.SIGPIPE, signal.SIG_IGN)
        if self.then is not None:
            self.then()


class Bench:
    """The program, a folder for inputs, whether the whole is tried, and what held so far."""

    def __init__(self, program: str, long: bool) -> None:
        self.program = str(pathlib.Path(program).resolve())
        self.long = long
        self.folder = pathlib.Path(tempfile.mkdtemp(prefix="hostile-"))
        self.held = 0
        self.faults: list[str] = []
        self.notes: list[str] = []
        self.left_out: list[str] = []
        self.title = ""

    def close(self) -> None:
        """Removes the folder."""
        shutil.rmtree(self.folder, ignore_errors=True)

    def at(self, name: str) -> pathlib.Path:
        """The path of an input."""
        return self.folder / name

    @property
    def output(self) -> pathlib.Path:
        """The file with what the last call wrote."""
        return self.at("standard.output")

    def write(self, name: str, text: bytes) -> str:
        """Makes an input of some bytes."""
        self.at(name).write_bytes(text)
        return name

    def make(self, name: str, pieces: Iterable[bytes]) -> str:
        """Makes an input of pieces, so that a large one is never whole in memory here."""
        with open(self.at(name), "wb") as file:
            for piece in pieces:
                file.write(piece)
        return name

    def call(
        self,
        words: Sequence[Word],
        limits: Optional[Limits] = None,
        seconds: float = 120,
        out: Union[int, IO[bytes], None] = None,
        before: Sequence[bytes] = (),
        env: Optional[Mapping[str, str]] = None,
    ) -> Answer:
        """One call. Its standard output is a file of the folder, unless `out` says another. `before` is
        put before the program's name."""
        limits = limits or Limits()
        with open(self.output, "wb") as file:
            child = subprocess.Popen(
                [*before, self.program.encode(), *map(bytes_of, words)],
                cwd=self.folder,
                stdin=subprocess.DEVNULL,
                stdout=file if out is None else out,
                stderr=subprocess.DEVNULL,
                preexec_fn=limits.set,
                env=env,
                restore_signals=not limits.quiet,
            )
            ended = wait(child, seconds)
        if out is not None:
            return ended.answer(b"", 0)
        with open(self.output, "rb") as file:
            return ended.answer(file.read(KEPT), self.output.stat().st_size)

    def same(self, pieces: Iterable[bytes]) -> bool:
        """Whether the last call wrote exactly these pieces."""
        with open(self.output, "rb") as file:
            return all(file.read(len(piece)) == piece for piece in pieces) and file.read(1) == b""

    def say(self, holds: bool, name: str, told: str = "") -> bool:
        """Counts one thing that is to hold."""
        if holds:
            self.held += 1
        else:
            self.faults.append(f"{self.title}: {name}: {told}")
            print(f"FAILED {self.faults[-1]}", flush=True)
        return holds

    def expect(self, name: str, answer: Answer, status: int, out: Optional[bytes]) -> bool:
        """Counts a call that is to end with this status and these bytes (None: any)."""
        held = answer.status == status and (out is None or (answer.out == out and answer.size == len(out)))
        return self.say(held, name, f"{answer.shown()}, not status {status}, {(out or b'')[:160]!r}")

    def leave_out(self, reason: str, what: str) -> None:
        """Keeps that something is left out, and why."""
        self.left_out.append(reason)
        self.note(f"{what}: left out, since {reason}")

    def note(self, text: str) -> None:
        """Keeps a figure, to be shown at the end."""
        self.notes.append(f"{self.title}: {text}")
        print(f"  {text}", flush=True)


def delay_of(pid: int) -> float:
    """For how many seconds the first thread of a process was ready while no processor was free for it; 0 where the
    system doesn't say."""
    try:
        return int(pathlib.Path(f"/proc/{pid}/schedstat").read_text().split()[1]) / 1e9
    except (OSError, IndexError, ValueError):
        return 0.0


def wait(child: subprocess.Popen[bytes], seconds: float) -> Ended:
    """How a child ended; one that takes longer is killed (status -9)."""
    end = time.monotonic() + seconds
    pause = 0.0005
    while os.waitid(os.P_PID, child.pid, os.WEXITED | os.WNOHANG | os.WNOWAIT) is None:
        if time.monotonic() > end:
            child.kill()
            _, _, used = os.wait4(child.pid, 0)
            child.returncode = -9
            return Ended(-9, used, 0.0)
        time.sleep(pause)
        pause = min(pause * 1.3, 0.05)
    delay = delay_of(child.pid)
    _, status, used = os.wait4(child.pid, 0)
    child.returncode = os.waitstatus_to_exitcode(status)
    return Ended(child.returncode, used, delay)


def tool(name: str) -> Optional[str]:
    """The path of a program of the system, or None."""
    return shutil.which(name)


def is_root() -> bool:
    """Whether this user may read every file."""
    return os.geteuid() == 0


def main_of(table: Callable[[Bench], None]) -> int:
    """Runs one table by itself: TABLE.py PROGRAM [--long]."""
    bench = Bench(sys.argv[1], "--long" in sys.argv)
    bench.title = table.__name__
    try:
        table(bench)
    finally:
        bench.close()
    print(f"{bench.held} held, {len(bench.faults)} did not")
    return 1 if bench.faults else 0
