#!/usr/bin/env python3
"""How long `./feast --prove` would take with so many processors: lanes.py [CHECKOUT] [--lanes N..].

It plays the order in which that call proves the crates of a checkout (this one if none is named), with the seconds
that its table (bench/seconds.txt) has for each, and proves nothing. So it shows what another cut of the crates
brings before anything is proved anew. Crates on which a heavy chain waits go first, and free processors are shared out as
the call shares them; a crate that has several is taken to be as much quicker as FASTER says.
"""
from __future__ import annotations

import argparse
import re
import sys
from dataclasses import dataclass
from pathlib import Path

TOP = Path(__file__).resolve().parent.parent
sys.path.insert(0, str(TOP / "tools"))
sys.dont_write_bytecode = True
from first_call.crates import Crate, chains, crates_of_program  # noqa: E402

# how many times as fast a crate is proved with 1, 2, 3, .. processors: an assumption
FASTER = (1.0, 1.6, 2.0, 2.3, 2.5, 2.6, 2.7, 2.8)


@dataclass
class Work:
    """A crate that is being proved: its processors, and the seconds of one that are left."""

    name: str
    jobs: int
    left: float

    @property
    def speed(self) -> float:
        """How fast it goes."""
        return FASTER[min(self.jobs, len(FASTER)) - 1]


def shared(ready: list[Crate], free: int, seconds: dict[str, float]) -> list[Work]:
    """The crates that begin on the free processors, as many as there is room for."""
    jobs = max(free // max(len(ready), 1), 1)
    return [Work(crate.name, jobs, seconds[crate.name]) for crate in ready[:free]]


def played(crates: list[Crate], seconds: dict[str, float], lanes: int) -> float:
    """The seconds by the clock in which all are proved."""
    chain = chains(crates, {crate.name: crate.weight for crate in crates})
    waiting = sorted(crates, key=lambda it: -chain[it.name])
    done: set[str] = set()
    works: list[Work] = []
    clock = 0.0
    while waiting or works:
        free = lanes - sum(work.jobs for work in works)
        begun = shared([it for it in waiting if done.issuperset(it.below)], free, seconds)
        works += begun
        waiting = [it for it in waiting if it.name not in {work.name for work in begun}]
        step = min(work.left / work.speed for work in works)
        clock += step
        for work in works:
            work.left -= step * work.speed
        done |= {work.name for work in works if work.left < 1e-6}
        works = [work for work in works if work.name not in done]
    return clock


def table(path: Path) -> dict[str, float]:
    """The seconds of each crate, as lines `NAME SECONDS` have them."""
    return {name: float(seconds) for name, seconds in re.findall(r"^(\w+) (\d+)$", path.read_text(), re.MULTILINE)}


def main() -> int:
    """The command."""
    parser = argparse.ArgumentParser(description="How long ./feast --prove would take with so many processors.")
    parser.add_argument("checkout", nargs="?", type=Path, default=TOP, metavar="CHECKOUT", help="another checkout (this one)")
    parser.add_argument("--lanes", nargs="+", type=int, default=[2, 4, 8], metavar="N", help="processors (2 4 8)")
    words = parser.parse_args()
    if min(words.lanes) < 1:
        parser.error("--lanes: at least 1")
    try:
        crates = crates_of_program(words.checkout)
        seconds = table(words.checkout / "bench" / "seconds.txt")
    except (OSError, KeyError) as why:
        parser.error(f"{words.checkout} is no checkout: {why}")
    if unknown := [it.name for it in crates if it.name not in seconds]:
        parser.error(f"the table has no seconds for {', '.join(unknown)}")
    chain = max(chains(crates, seconds).values())
    print(f"{sum(seconds[it.name] for it in crates) / 60:.1f} minutes of processor time, the longest chain {chain / 60:.1f}")
    for lanes in words.lanes:
        print(f"{lanes} processors: {played(crates, seconds, lanes) / 60:.1f} minutes")
    return 0


if __name__ == "__main__":
    sys.exit(main())
