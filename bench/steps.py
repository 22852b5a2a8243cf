"""How long a stepped run takes: `feast step` of a world of 4 by 4 tiles of 16 by 16 sites.

    python3 bench/steps.py [PROGRAM]    events and attempts a second of processor time, the least of five runs

See README.md beside this file.
"""

from __future__ import annotations

import argparse
import pathlib
import resource
import subprocess
import sys
import tempfile
from typing import NamedTuple

sys.path.insert(0, str(pathlib.Path(__file__).resolve().parent))
sys.dont_write_bytecode = True
from whole import CRATE, PROGRAM, build, entries  # noqa: E402
from worlds import ELEMENTS, world  # noqa: E402

TILES = 4
SIDE = 16
ATTEMPTS = 20_000


def ordered(attempts: int) -> str:
    """The world with so many attempts a tile; its order is drawn."""
    return world(TILES, attempts * TILES**2, side=SIDE) + "order seed 8\n"


def used() -> float:
    """Seconds of processor time that the programs took which are done."""
    usage = resource.getrusage(resource.RUSAGE_CHILDREN)
    return usage.ru_utime + usage.ru_stime


class Took(NamedTuple):
    """The processor time of the least of five runs in seconds, and their report."""

    seconds: float
    report: bytes


def timed(program: pathlib.Path, folder: pathlib.Path, attempts: int) -> Took:
    """Five stepped runs with so many attempts a tile."""
    (folder / "w").write_text(ordered(attempts))
    (folder / "e").write_text(ELEMENTS)
    seconds = []
    for _ in range(5):
        begin = used()
        report = subprocess.run([program, "step", "w", "e"], cwd=folder, capture_output=True, check=True).stdout
        seconds.append(used() - begin)
    return Took(min(seconds), report)


def main() -> None:
    """The command."""
    parser = argparse.ArgumentParser(description=__doc__, formatter_class=argparse.RawDescriptionHelpFormatter)
    parser.add_argument("program", metavar="PROGRAM", nargs="?", type=pathlib.Path, help="another build")
    program = (parser.parse_args().program or PROGRAM).resolve()
    if not program.exists():
        build(CRATE)
    with tempfile.TemporaryDirectory() as name:
        folder = pathlib.Path(name)
        bare = timed(program, folder, 0).seconds
        whole, report = timed(program, folder, ATTEMPTS)
    events, abandoned = entries(report)
    took = whole - bare
    print(f"{events} events and {abandoned} abandoned attempts in {whole:.2f} s, of which {bare:.2f} s without attempts")
    print(f"{events / took:,.0f} events a second, {(events + abandoned) / took:,.0f} attempts a second")


if __name__ == "__main__":
    main()
