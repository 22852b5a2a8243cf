#!/usr/bin/env python3
"""Makes every event of the examples' runs again by the lab's machine: traces.py [PROGRAM] [EXAMPLE..].

Of each world the report is made, of several tiles by `step`, and then each event again, in Python, from its window and
its seed. The program makes each event again too, from the same window, and has to come to the same. It says how many
events there were, and ends with 1 if one is made otherwise. This takes an hour or so; tests/lab has the quick part.
"""
import argparse
import os
import sys
from pathlib import Path

TOP = Path(__file__).resolve().parent.parent
BUILT = TOP / "crates" / "feast" / "out" / "feast"
sys.dont_write_bytecode = True
sys.path[0:0] = [str(TOP / "tools"), str(TOP / "tests" / "lab")]

from again import Tally, example_runs  # noqa: E402

from feast_lab.lab.base.program import Program  # noqa: E402
from feast_lab.lab.machine.windows import Disagreement  # noqa: E402


def main() -> int:
    """Makes the events of the examples that are named, or of all."""
    parser = argparse.ArgumentParser(description=__doc__, formatter_class=argparse.RawDescriptionHelpFormatter)
    parser.add_argument("program", metavar="PROGRAM", nargs="?", type=Path, default=BUILT)
    parser.add_argument("examples", metavar="EXAMPLE", nargs="*", help="the name of a world, such as life-tiles")
    arguments = parser.parse_args()
    os.environ["FEAST_PROGRAM"] = str(arguments.program.resolve())
    program, failed = Program.find(), False
    for form, world, files in example_runs():
        if not arguments.examples or world.stem in arguments.examples:
            tally = Tally()
            try:
                tally.add(program, form, world, files)
                said = tally.text()
            except Disagreement as disagreement:
                failed, said = True, str(disagreement)
            print(f"{world.stem}: {said}", flush=True)
    return 1 if failed else 0


if __name__ == "__main__":
    sys.exit(main())
