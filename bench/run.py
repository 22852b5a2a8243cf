"""How long events take: the proved code beside a plain program.

    python3 bench/run.py            times, in nanoseconds an event, and their ratio
    python3 bench/run.py --count    instructions an event, counted by valgrind

See README.md beside this file.
"""

from __future__ import annotations

import argparse
import pathlib
import random
import re
import subprocess
import sys
import tempfile
from typing import Iterator, NamedTuple

sys.path.insert(0, str(pathlib.Path(__file__).resolve().parent))
sys.dont_write_bytecode = True
from calls import Words, instructions  # noqa: E402
from whole import CRATE, HERE, PROGRAM, build, build_plain, written  # noqa: E402
from worlds import SIDE, WALKER  # noqa: E402

BENCH_CRATE = HERE.parent / "crates/bench_parts"
BENCH = BENCH_CRATE / "out/bench_parts"


class Case(NamedTuple):
    """A world: one site in so many is occupied, and centres lie in a square of so many columns and rows."""

    every: int
    side: int


CASES = [Case(1, 56), Case(1, 64), Case(20, 56), Case(20, 64)]


class Cost(NamedTuple):
    """What an event costs the proved program and the plain one."""

    ours: float
    theirs: float


def write_world(path: pathlib.Path, attempts: int, every: int, side: int) -> None:
    """A world of one tile with Walkers (none for 0)."""
    draw = random.Random(1)
    margin = (SIDE - side) // 2
    lines = ["feast 1", "tiles 1 1", f"size {SIDE} {SIDE}"]
    for _ in range(attempts):
        x, y = (draw.randrange(margin, margin + side) for _ in "xy")
        lines.append(f"try 0 {x} {y} {draw.getrandbits(64):016x}")
    if every:
        lines += [f"atom {i % SIDE} {i // SIDE} Walker" for i in range(0, SIDE * SIDE, every)]
    path.write_text("\n".join(lines) + "\n")


def picoseconds(words: Words) -> list[int]:
    """What a program says that each event took, case by case."""
    text = subprocess.run(words, capture_output=True, check=True, text=True).stdout
    return [int(n) for n in re.findall(r"^(\d+) picoseconds", text, re.M)]


def times(folder: pathlib.Path, plain: pathlib.Path) -> Iterator[Cost]:
    """Both programs' least times of three runs, in turn, in nanoseconds."""
    worlds = [folder / f"{every}-{side}" for every, side in CASES]
    for world, (every, side) in zip(worlds, CASES):
        write_world(world, 1_000_000, every, side)
    rounds = [(picoseconds([BENCH, "event", "time"]), [picoseconds([plain, w, "time"])[0] for w in worlds]) for _ in range(3)]
    for i in range(len(CASES)):
        yield Cost(min(ours[i] for ours, _ in rounds) / 1000, min(theirs[i] for _, theirs in rounds) / 1000)


def counted(folder: pathlib.Path, plain: pathlib.Path, element: pathlib.Path) -> Cost:
    """The instructions of both programs over the world of the folder; ends unless their reports are the same."""
    world = folder / "world"
    ours: Words = [PROGRAM, "run", world, element]
    theirs: Words = [plain, world]
    if written(ours) != written(theirs):
        sys.exit("the two programs' reports differ")
    return Cost(instructions(ours, folder), instructions(theirs, folder))


def counts(folder: pathlib.Path, plain: pathlib.Path) -> Iterator[Cost]:
    """What 100,000 events cost both programs, over what the same attempts cost where no site is occupied."""
    element = folder / "walker.ulam"
    element.write_text(WALKER)
    for every, side in CASES:
        write_world(folder / "world", 100_000, every, side)
        some = counted(folder, plain, element)
        write_world(folder / "world", 100_000, 0, side)
        none = counted(folder, plain, element)
        yield Cost((some.ours - none.ours) / 100_000, (some.theirs - none.theirs) / 100_000)


def main() -> None:
    """The command."""
    parser = argparse.ArgumentParser(description=__doc__, formatter_class=argparse.RawDescriptionHelpFormatter)
    parser.add_argument("--count", action="store_true", help="count instructions in place of times")
    given = parser.parse_args()
    build(CRATE)
    build(BENCH_CRATE)
    with tempfile.TemporaryDirectory() as name:
        folder = pathlib.Path(name)
        unit, costs = ("instructions", counts) if given.count else ("ns", times)
        for (every, side), (ours, theirs) in zip(CASES, costs(folder, build_plain(folder))):
            case = f"one site in {every} occupied, centres in the middle {side} by {side}"
            told = f"{ours:.1f} {unit} an event, plain program {theirs:.1f}, ratio {ours / theirs:.1f}"
            print(f"{case}: {told}", flush=True)


if __name__ == "__main__":
    main()
