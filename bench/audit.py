"""How long an audit of a report of 1,000,000 entries takes, and a rewind of it to its start.

    python3 bench/audit.py [PROGRAM]  seconds for each

See README.md beside this file.
"""

from __future__ import annotations

import argparse
import pathlib
import subprocess
import sys
import tempfile
import time
from typing import NamedTuple

sys.path.insert(0, str(pathlib.Path(__file__).resolve().parent))
sys.dont_write_bytecode = True
from calls import Words  # noqa: E402
from whole import PROGRAM  # noqa: E402
from worlds import WALKER, lines_of_tries  # noqa: E402


class Took(NamedTuple):
    """What a call wrote, and the seconds that it took."""

    text: bytes
    seconds: float


def timed(words: Words, folder: pathlib.Path) -> Took:
    """A call in a folder."""
    start = time.monotonic()
    text = subprocess.run(words, cwd=folder, capture_output=True, check=True).stdout
    return Took(text, time.monotonic() - start)


def main() -> None:
    """The command."""
    parser = argparse.ArgumentParser(description=__doc__, formatter_class=argparse.RawDescriptionHelpFormatter)
    parser.add_argument("program", metavar="PROGRAM", nargs="?", type=pathlib.Path, help="another build")
    program = (parser.parse_args().program or PROGRAM).resolve()
    with tempfile.TemporaryDirectory() as name:
        folder = pathlib.Path(name)
        (folder / "W").write_text(WALKER)
        for tiles in (1, 8):
            (folder / "world").write_text(lines_of_tries(tiles))
            (folder / "report").write_bytes(timed([program, "step", "world", "W"], folder).text)
            audit = timed([program, "audit", "world", "report", "W"], folder)
            assert audit.text == b"yes\n", audit.text
            rewind = timed([program, "rewind", "world", "report", "0", "W"], folder)
            print(f"{tiles * tiles} tiles: audit {audit.seconds:.1f} s, rewind {rewind.seconds:.1f} s", flush=True)


if __name__ == "__main__":
    main()
