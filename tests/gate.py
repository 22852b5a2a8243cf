#!/usr/bin/env python3
"""The gate: `rt ci`, and whether dist/ has the program that it made. gate.py has the status 1 if something fails.

Once `rt ci` has passed, what it made its program of is put beside that program, for ./feast and tools/dist.
"""
from __future__ import annotations

import subprocess
import sys
from pathlib import Path

TOP = Path(__file__).resolve().parent.parent
sys.dont_write_bytecode = True
sys.path.insert(0, str(TOP / "tools"))

from feast_lab.proved.found import BUILT  # noqa: E402
from feast_lab.proved.record import GATE, Record, digest_of, kit  # noqa: E402
from feast_lab.proved.sources import SourcesError, digest  # noqa: E402
from releasing.dist import main as dist  # noqa: E402


def main(top: Path = TOP) -> int:
    """The command."""
    try:
        sources = digest(top)
        (top / BUILT.record).unlink(missing_ok=True)
        if subprocess.run(GATE.split(), cwd=top, check=False).returncode:
            return 1
        if digest(top) != sources:
            print("gate: the sources were changed while the gate ran, so it says nothing of them")
            return 1
        program = digest_of(top / BUILT.program)
        if program is None:
            print(f"gate: rt ci has passed, and there is no {BUILT.program}")
            return 1
        Record(kit(), GATE, program, sources).write(top / BUILT.record)
    except (SourcesError, OSError, subprocess.CalledProcessError) as fault:
        print(f"gate: {fault}")
        return 1
    return dist(["--check"], top)


if __name__ == "__main__":
    sys.exit(main())
