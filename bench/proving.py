"""A copy of the repository in which crates are proved from nothing, and what each call of the toolchain takes.

The toolchain keeps work in a crate's out/, and shares it among all copies of a repository on a machine: a
folder beside the toolchain's own says where each copy keeps its work, and a check begins with that of another
copy if it is of the same crate. No flag and no variable turns this off. So the copy has a toolchain of links
to the one that is installed, which finds nothing beside itself and leaves its notes there.
"""

from __future__ import annotations

import os
import re
import shutil
import subprocess
import time
from dataclasses import dataclass
from pathlib import Path

# the files by whose place the toolchain finds its folder: links to them would lead back to the installed one
OWN = ("rt", "rtlib.py")
# what a check writes that begins with another copy's work
SHARED = "begins with what a check kept"
LAST_LINES = 20
# seconds
GRACE = 0.5


class Failed(Exception):
    """A call of the toolchain that failed, with the end of what it wrote."""


@dataclass(frozen=True)
class Call:
    """What a call wrote, its seconds of processor time and by the clock, and the megabytes of its largest process."""

    text: str
    processor: float
    clock: float
    megabytes: float

    def functions(self) -> int:
        """How many functions a check says that it proved."""
        found = re.search(r"^logic=proved\b.* functions=(\d+)", self.text, re.M)
        if not found:
            raise ValueError("it has no line logic=proved with functions=")
        return int(found[1])


def measured(words: list[str], folder: Path, log: Path) -> tuple[int, Call]:
    """The status of a call, and what it and all processes that it waited for took."""
    begin = time.perf_counter()
    with open(log, "wb") as out:
        child = subprocess.Popen(words, cwd=folder, stdin=subprocess.DEVNULL, stdout=out, stderr=subprocess.STDOUT)
        try:
            _, status, used = os.wait4(child.pid, 0)
        except BaseException:
            child.kill()
            child.wait()
            # what it started ends a moment after it
            time.sleep(GRACE)
            raise
    child.returncode = os.waitstatus_to_exitcode(status)
    clock = time.perf_counter() - begin
    text = log.read_text(errors="replace")
    return child.returncode, Call(text, used.ru_utime + used.ru_stime, clock, used.ru_maxrss / 1024)


def link_toolchain(installed: Path, to: Path) -> Path:
    """Makes a toolchain of links to the installed one, whose command is given, and returns its own command."""
    top = installed.resolve().parent.parent
    (to / "bin").mkdir(parents=True)
    for path in [*top.iterdir(), *(top / "bin").iterdir()]:
        link = to / path.relative_to(top)
        if path.name in OWN:
            shutil.copy(path, link)
        elif not link.exists():
            link.symlink_to(path)
    return to / "bin" / installed.resolve().name


def copy_crates(top: Path, to: Path) -> None:
    """Copies what the toolchain reads of a repository, and leaves out what was kept or built."""
    crates = top / "crates"
    shutil.copytree(crates, to / "crates", ignore=lambda at, names: ["out"] if Path(at).parent == crates else [])
    for name in ("crates.txt", "HANDLES"):
        shutil.copy(top / name, to / name)


@dataclass(frozen=True)
class Copy:
    """A copy of a repository, with the command of its own toolchain."""

    folder: Path
    command: Path

    @staticmethod
    def made(top: Path, installed: Path, folder: Path) -> Copy:
        """Makes a copy of the repository in an empty folder."""
        copy_crates(top, folder / "repository")
        return Copy(folder, link_toolchain(installed, folder / "toolchain"))

    def out(self, crate: str) -> Path:
        """Where the toolchain keeps what it made of a crate."""
        return self.folder / "repository" / "crates" / crate / "out"

    def check(self, crate: str) -> Call:
        """Proves a crate; the libraries below are built before."""
        return self._call("check", crate)

    def build(self, crate: str) -> Call:
        """Builds a crate that was checked, for the crates above."""
        return self._call("lib", crate)

    def drop_work(self, crate: str) -> None:
        """Removes what the check of a crate kept, which the crates above don't need."""
        shutil.rmtree(self.out(crate) / "incremental", ignore_errors=True)

    def _call(self, verb: str, crate: str) -> Call:
        words = [str(self.command), verb, "--jobs", "1"]
        status, call = measured(words, self.out(crate).parent, self.folder / "log")
        if status != 0:
            end = "\n".join(call.text.splitlines()[-LAST_LINES:])
            raise Failed(f"{crate}: rt {verb} has status {status}; the last that it wrote:\n{end}")
        if SHARED in call.text:
            raise Failed(f"{crate}: rt {verb} began with work that another copy of the repository kept, so nothing is measured")
        return call
