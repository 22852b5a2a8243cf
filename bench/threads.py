"""How fast workers are: `feast run` of worlds of one and of many tiles, on all processors and on one.

    python3 bench/threads.py          attempts a second, of the fastest of seven runs each

See README.md beside this file.
"""

from __future__ import annotations

import argparse
import os
import pathlib
import sys
import tempfile

sys.path.insert(0, str(pathlib.Path(__file__).resolve().parent))
sys.dont_write_bytecode = True
from calls import Words  # noqa: E402
from whole import CRATE, PROGRAM, build, entries, timed, written  # noqa: E402
from worlds import ATTEMPTS, ELEMENTS, world  # noqa: E402


def show(folder: pathlib.Path, tiles: int, processor: int) -> None:
    """Prints how fast a world of so many tiles each way is, on all processors and on one of them."""
    (folder / "world").write_text(world(tiles))
    run: Words = [PROGRAM, "run", folder / "world", folder / "elements"]
    one: Words = ["taskset", "-c", str(processor), *run]
    events, abandoned = entries(written(run))
    assert events + abandoned == ATTEMPTS
    # in turn, so that both stand on a machine that does other work too
    rounds = [(timed(run), timed(one)) for _ in range(7)]
    many, single = (min(seconds) for seconds in zip(*rounds))
    print(
        f"{tiles} by {tiles} tiles: {many:.3f} s ({ATTEMPTS / many / 1e6:.2f} million a second), "
        f"on one processor {single:.3f} s ({ATTEMPTS / single / 1e6:.2f}), "
        f"ratio {single / many:.2f}; {abandoned} abandoned"
    )


def main() -> None:
    """The command."""
    argparse.ArgumentParser(description=__doc__, formatter_class=argparse.RawDescriptionHelpFormatter).parse_args()
    if not PROGRAM.exists():
        build(CRATE)
    processors = sorted(os.sched_getaffinity(0))
    print(f"{ATTEMPTS} attempts together, {len(processors)} processors")
    with tempfile.TemporaryDirectory() as name:
        folder = pathlib.Path(name)
        (folder / "elements").write_text(ELEMENTS)
        for tiles in (1, 2, 8):
            show(folder, tiles, processors[0])


if __name__ == "__main__":
    main()
