"""How long a whole run takes: `feast run` beside a plain program, over one world.

    python3 bench/whole.py            seconds, the least of seven runs, and their ratio

See README.md beside this file.
"""

from __future__ import annotations

import argparse
import os
import pathlib
import subprocess
import sys
import tempfile
import time
from typing import NamedTuple

sys.path.insert(0, str(pathlib.Path(__file__).resolve().parent))
sys.dont_write_bytecode = True
from calls import Words  # noqa: E402
from children import called  # noqa: E402
from worlds import ATTEMPTS, ELEMENTS, world  # noqa: E402

HERE = pathlib.Path(__file__).resolve().parent
CRATE = HERE.parent / "crates/feast"
PROGRAM = CRATE / "out/feast"
# a call of the program that ends well, and does next to nothing
EASY = ["check", os.devnull]


def build(crate: pathlib.Path) -> None:
    """Proves and builds the program of a crate, as far as that is still to be done, and calls it once with words that it
    takes. Ends if that fails; the toolchain tells why."""
    ends_well(["rt", "run", *(["--", *EASY] if crate == CRATE else [])], crate)


def program_of(named: pathlib.Path | None = None) -> pathlib.Path:
    """A program that is named, or else that of ./feast, built as far as that is still to be done. Ends if it can't be built."""
    if named is None:
        # (with FEAST_PROGRAM, ./feast would run another program, and build none)
        ends_well(["env", "-u", "FEAST_PROGRAM", HERE.parent / "feast", *EASY], HERE.parent)
    return (named or PROGRAM).resolve()


def ends_well(words: Words, folder: pathlib.Path) -> None:
    """Makes a call in a folder, which tells what it does. Ends unless its status is 0."""
    try:
        status = called(words, folder, sys.stderr.buffer, sys.stderr.buffer).returncode
    except OSError as why:
        sys.exit(f"{words[0]} can't be called: {why}")
    if status != 0:
        sys.exit(f"{' '.join(map(str, words))} ended with {status}, in {folder}")


def build_plain(folder: pathlib.Path, source: pathlib.Path = HERE / "flat.rs") -> pathlib.Path:
    """Builds a plain program, that of one tile unless another is named, and returns its path."""
    plain = folder / source.stem
    ends_well(["rustc", "--edition", "2021", "-O", "-C", "target-cpu=x86-64-v2", source, "-o", plain], pathlib.Path.cwd())
    return plain


def written(words: Words) -> bytes:
    """What a call writes."""
    return subprocess.run(words, capture_output=True, check=True).stdout


class Entries(NamedTuple):
    """How many events and how many abandoned attempts a report has."""

    events: int
    abandoned: int


def entries(report: bytes) -> Entries:
    """The numbers of entries that a report tells."""
    told = [line.split() for line in report.split(b"\n") if line.startswith((b"journal ", b"abandoned "))]
    events, abandoned = [int(count) for _, count in told]
    return Entries(events, abandoned)


def timed(words: Words) -> float:
    """Seconds of one run."""
    begin = time.perf_counter()
    subprocess.run(words, stdout=subprocess.DEVNULL, check=True)
    return time.perf_counter() - begin


def main() -> None:
    """The command."""
    argparse.ArgumentParser(description=__doc__, formatter_class=argparse.RawDescriptionHelpFormatter).parse_args()
    if not PROGRAM.exists():
        build(CRATE)
    with tempfile.TemporaryDirectory() as name:
        folder = pathlib.Path(name)
        plain = build_plain(folder)
        (folder / "world").write_text(world())
        (folder / "elements").write_text(ELEMENTS)
        ours: Words = [PROGRAM, "run", folder / "world", folder / "elements"]
        theirs: Words = [plain, folder / "world"]
        if written(ours) != written(theirs):
            sys.exit("the reports differ")
        # in turn, so that the ratio stands on a machine that does other work too
        rounds = [(timed(ours), timed(theirs)) for _ in range(7)]
    proved, flat = min(r[0] for r in rounds), min(r[1] for r in rounds)
    print(f"{ATTEMPTS} attempts: proved {proved:.3f} s, plain {flat:.3f} s, ratio {proved / flat:.2f}")


if __name__ == "__main__":
    main()
