"""One call at a time, the proof, the program."""
import fcntl
import os
import signal
import subprocess
import time
from pathlib import Path
from typing import IO

from feast_lab.proved.found import BUILT
from feast_lab.proved.sources import SourcesError, digest

from first_call.build import Build, Refused
from first_call.machine import end
from first_call.teller import say, tell

KEPT = "crates that are proved are kept, and the same command goes on from there"
# How often what goes on is looked at, in seconds.
TICK = 0.5


class FirstCall:
    """A first call in a clone."""

    def __init__(self, top: Path) -> None:
        self.top, self.is_told_to_end = top, False
        # Signals end the call, but for those that it was started to ignore.
        for number in (signal.SIGINT, signal.SIGTERM, signal.SIGHUP):
            if signal.getsignal(number) != signal.SIG_IGN:
                signal.signal(number, self.note_signal)

    def note_signal(self, *_: object) -> None:
        """Notes that the call is to end."""
        self.is_told_to_end = True

    def pause(self) -> None:
        """Waits a moment, and ends the call if it was told to end."""
        time.sleep(TICK)
        if self.is_told_to_end:
            raise KeyboardInterrupt

    def make_ready(self) -> None:
        """Has the program built, by this call or by another."""
        folder = (self.top / BUILT.program).parent
        folder.mkdir(parents=True, exist_ok=True)
        with open(folder / "first-call.lock", "a") as lock:
            if is_taken(lock):
                say("another ./feast is building the program: waiting for it")
                while is_taken(lock):
                    self.pause()
            is_wanted = BUILT.fault(self.top, digest(self.top)) is not None
            while is_wanted and not self.build(Build(self.top)):
                say("a source was changed meanwhile: what stands on it is proved again")

    def build(self, build: Build) -> bool:
        """Proves and builds the program. False if a source was changed meanwhile."""
        say(f"{build.plan()}; you can interrupt this: {KEPT}")
        try:
            while build.begin_ready():
                self.pause()
                build.look()
        finally:
            end(build.works)
        return build.finish()


def is_taken(lock: IO[str]) -> bool:
    """Whether another process has the lock; if none has, this one takes it."""
    try:
        fcntl.flock(lock, fcntl.LOCK_EX | fcntl.LOCK_NB)
    except OSError as why:
        # (Some file systems have no locks: the toolchain's own then have to do.)
        return isinstance(why, BlockingIOError)
    return False


def main(top: Path, words: list[str]) -> int:
    """Has the program proved and built if need be, and runs it on words other than `--prove`; the status if it doesn't."""
    try:
        FirstCall(top).make_ready()
        if words == ["--prove"]:
            say(f"{top / BUILT.program} was proved here, of the sources that lie here")
            return 0
        # Python ignores these two, and the program would inherit that.
        for number in (signal.SIGPIPE, signal.SIGXFSZ):
            signal.signal(number, signal.SIG_DFL)
        os.execv(top / BUILT.program, [str(top / BUILT.program), *words])
    except KeyboardInterrupt:
        say(f"interrupted: {KEPT}")
        return 128 + signal.SIGINT
    except Refused as fault:
        tell(f"{fault}feast: the program could not be built: the toolchain's reasons are above\n")
    except (OSError, SourcesError, subprocess.CalledProcessError) as fault:
        say(str(fault))
    return 1
