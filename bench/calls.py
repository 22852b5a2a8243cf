"""Calls of programs, measured from outside: their time, their memory at the peak, and their instructions."""

import concurrent.futures
import dataclasses
import os
import pathlib
import re
import subprocess
import sys

from children import called

Words = list[str | pathlib.Path]

# Calls a program from a process that has little memory of its own, since what a process had before it began the
# program counts at the peak.
CALL = """import os, sys, time
begin = time.perf_counter()
child = os.posix_spawn(sys.argv[1], sys.argv[1:], os.environ)
_, status, used = os.wait4(child, 0)
print(time.perf_counter() - begin, used.ru_maxrss, os.waitstatus_to_exitcode(status), file=sys.stderr)
"""


@dataclasses.dataclass(frozen=True)
class Used:
    """What a call took: seconds, megabytes at the peak; how it ended, and what it said on standard error."""

    seconds: float
    megabytes: float
    status: int
    told: str

    def shown(self) -> str:
        """Time and memory."""
        return f"{self.seconds:.3f} s, {self.megabytes:.0f} MB"


class Failed(Exception):
    """A call that did not end with status 0."""


def measured(words: Words, to: str | pathlib.Path = os.devnull) -> Used:
    """One call, whose output goes to a file."""
    with open(to, "wb") as out:
        done = called([sys.executable, "-S", "-E", "-c", CALL, *words], out=out)
    said = done.stderr.decode(errors="replace").splitlines()
    if done.returncode != 0:
        *_, why = said or ["it was killed"]
        raise Failed(f"{words[0]} can't be called: {why}")
    *told, last = said
    seconds, kilobytes, status = last.split()
    return Used(float(seconds), int(kilobytes) / 1024, int(status), "\n".join(told))


def made(words: Words, to: str | pathlib.Path = os.devnull) -> Used:
    """One call that has to end well."""
    used = measured(words, to)
    if used.status != 0:
        raise Failed(f"{' '.join(map(str, words[:3]))} ended with {used.status}: {used.told[:200]}")
    return used


def in_turn(calls: dict[str, Words], rounds: int) -> dict[str, Used]:
    """Several calls in turn, so that their ratios stand on a machine that does other work too.

    For each its least time and its greatest memory of some rounds.
    """
    runs: dict[str, list[Used]] = {name: [] for name in calls}
    for _ in range(rounds):
        for name, words in calls.items():
            runs[name].append(made(words))
    return {name: best(of) for name, of in runs.items()}


def at_once(calls: list[Words]) -> float:
    """Calls side by side, that all have to end well: the seconds of the one that takes longest."""
    with concurrent.futures.ThreadPoolExecutor(len(calls)) as pool:
        return max(used.seconds for used in pool.map(made, calls))


def best(runs: list[Used]) -> Used:
    """The run of least time, with the greatest memory of all."""
    least = min(runs, key=lambda used: used.seconds)
    return dataclasses.replace(least, megabytes=max(used.megabytes for used in runs))


def instructions(words: Words, folder: pathlib.Path) -> int:
    """All instructions of a call that ends well, counted by valgrind, which writes to the folder."""
    log = folder / "count"
    call = ["valgrind", "--tool=callgrind", f"--callgrind-out-file={log}", *words]
    subprocess.run(call, capture_output=True, check=True)
    found = re.search(r"^(?:summary|totals): (\d+)", log.read_text(), re.M)
    if found is None:
        raise Failed(f"valgrind has not counted the instructions of {words[0]}")
    return int(found[1])
