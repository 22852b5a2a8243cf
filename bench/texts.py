"""How long texts take: whole calls that do little else, beside a plain program.

    python3 bench/texts.py            milliseconds for 1,000,000 lines, the least of five runs, and their ratio

See README.md beside this file.
"""

from __future__ import annotations

import argparse
import pathlib
import random
import subprocess
import sys
import tempfile
import time
from typing import NamedTuple

sys.path.insert(0, str(pathlib.Path(__file__).resolve().parent))
sys.dont_write_bytecode = True
from calls import Words  # noqa: E402
from whole import CRATE, PROGRAM, build, build_plain, written  # noqa: E402

ATTEMPTS = 1_000_000
SIDE = 64
PLANE = f"feast 1\ntiles 1 1\nsize {SIDE} {SIDE}\n"
ELEMENT = "element Stone { Void behave() { } }\n"


def tries() -> str:
    """A world of one tile without atoms that lists its attempts."""
    draw = random.Random(1)
    lines = []
    for _ in range(ATTEMPTS):
        x, y = (draw.randrange(SIDE) for _ in "xy")
        lines.append(f"try 0 {x} {y} {draw.getrandbits(64):016x}\n")
    return PLANE + "".join(lines)


class Call(NamedTuple):
    """The words of a call, and the status with which it ends."""

    words: Words
    status: int = 0

    def milliseconds(self) -> float:
        """How long one run takes."""
        begin = time.perf_counter()
        ended = subprocess.run(self.words, stdout=subprocess.DEVNULL).returncode
        if ended != self.status:
            sys.exit(f"status {ended}, not {self.status}: {self.words}")
        return (time.perf_counter() - begin) * 1000


def compare(what: str, ours: Call, theirs: Call) -> None:
    """Prints the least times of two programs that run in turn."""
    rounds = [(ours.milliseconds(), theirs.milliseconds()) for _ in range(5)]
    proved, plain = (min(times) for times in zip(*rounds))
    print(f"{what}: {proved:.0f} ms, plain program {plain:.0f}, ratio {proved / plain:.1f}", flush=True)


def main() -> None:
    """The command."""
    argparse.ArgumentParser(description=__doc__, formatter_class=argparse.RawDescriptionHelpFormatter).parse_args()
    if not PROGRAM.exists():
        build(CRATE)
    with tempfile.TemporaryDirectory() as name:
        folder = pathlib.Path(name)
        plain = build_plain(folder)
        names = ("world", "seeded", "element", "wrong", "report")
        world, seeded, element, wrong, report = (folder / it for it in names)
        world.write_text(tries())
        seeded.write_text(f"{PLANE}seed 1\nattempts {ATTEMPTS}\n")
        element.write_text(ELEMENT)
        wrong.write_text("@")
        # the element file is refused once the world is read, and without atoms no event acts
        compare("a world read", Call([PROGRAM, "run", world, wrong], 4), Call([plain, world, "read"]))
        compare("a report written", Call([PROGRAM, "run", seeded, element]), Call([plain, seeded]))
        report.write_bytes(written([PROGRAM, "run", seeded, element]))
        replay = Call([PROGRAM, "replay", seeded, report, element])
        print(f"a report read: {min(replay.milliseconds() for _ in range(5)):.0f} ms")


if __name__ == "__main__":
    main()
