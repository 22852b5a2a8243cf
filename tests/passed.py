#!/usr/bin/env python3
"""Notes that everything passed on a commit: passed.py COMMIT PROGRAM KIT LEFT_OUT. `./test all` calls it; tools/release
reads it.

COMMIT is the one that was checked out when it began, PROGRAM the file that it built, KIT what `rt version` prints, and
LEFT_OUT a file with what was left out, counted by reason (tests/driver.py writes it).
Nothing is noted if another commit is checked out by now, or the tree has changes.
"""
from __future__ import annotations

import argparse
import json
import sys
from pathlib import Path

TOP = Path(__file__).resolve().parent.parent
sys.dont_write_bytecode = True
sys.path.insert(0, str(TOP / "tools"))

from releasing.record import Record, digest  # noqa: E402
from releasing.tree import ReleaseError, changes, commit_of  # noqa: E402


def main(words: list[str], top: Path = TOP) -> int:
    """The command: status 0 also if nothing is noted."""
    parser = argparse.ArgumentParser(description="Notes that everything passed on a commit.")
    parser.add_argument("commit", help="the commit that was checked out when the tests began")
    parser.add_argument("program", type=Path, help="the program that was built")
    parser.add_argument("kit", help="the kit's line")
    parser.add_argument("left_out", type=Path, help="what was left out, counted by reason")
    given = parser.parse_args(words)
    try:
        if commit_of(top) != given.commit or changes(top):
            print("passed, on a tree with changes: tools/release will want a run without")
            return 0
        left_out = json.loads(given.left_out.read_text())
        path = Record(given.commit, digest(given.program), " ".join(given.kit.split()), left_out).write(top)
    except (ReleaseError, OSError, ValueError) as fault:
        print(f"passed; it can't be noted for tools/release: {fault}")
        return 0
    print(f"passed on {given.commit[:12]}; noted in {path}")
    return 0


if __name__ == "__main__":
    sys.exit(main(sys.argv[1:]))
