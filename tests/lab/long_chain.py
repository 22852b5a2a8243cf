#!/usr/bin/env python3
"""A chain of many short legs with noise, killed on its way, goes on and audits: long_chain.py [PROGRAM] [--legs N].

Between two kills the lab takes its processor seconds for some legs; late ones may not cost much more than early ones.
"""
import argparse
import os
import signal
import subprocess
import sys
import tempfile
import time
from dataclasses import dataclass
from pathlib import Path

TOP = Path(__file__).resolve().parent.parent.parent
sys.dont_write_bytecode = True
sys.path[:0] = [str(TOP / "tools"), str(TOP / "tests")]
from calls import around  # noqa: E402

WORLD = """feast 1
tiles 2 2
size 8 8
seed 3
attempts 25
atom 1 2 Resource
atom 4 4 Regulator
atom 11 4 Regulator
"""
LEGS = 100_000
KILLS = 5
PATIENCE = 7200.0
SLOWER = 2.0  # a late leg takes at most so many times the processor seconds of an early one


@dataclass(frozen=True)
class Stretch:
    """What the lab made in a call: how many legs, and the processor seconds that it took by itself."""

    legs: int
    seconds: float


class LongChain:
    """A chain of legs of 100 attempts in a folder."""

    def __init__(self, room: Path, legs: int) -> None:
        self.folder, self.legs = room / "chain", legs
        self.world, self.elements = room / "small.world", TOP / "examples" / "regulator.ulam"
        self.world.write_text(WORLD)

    def done(self) -> int:
        """How many legs are done."""
        path = self.folder / "legs.index"
        lines = path.read_text().splitlines() if path.exists() else []
        return int(lines[-1].split()[0]) if lines else 0

    def stretch(self, upto: int) -> Stretch:
        """Makes legs until so many are done, and kills the lab then; or makes all of them."""
        before = self.done()
        process = subprocess.Popen([TOP / "lab", "chain", self.folder, "--legs", str(self.legs), "--step", "--keep", "reports",
                                    "--noise", "0.001", self.world, self.elements], env=around(),
                                   stdout=subprocess.DEVNULL, stderr=subprocess.PIPE)
        end = time.monotonic() + PATIENCE
        while upto < self.legs and self.done() < upto and process.poll() is None and time.monotonic() < end:
            time.sleep(0.02)
        if upto < self.legs:
            process.kill()
        assert process.stderr is not None
        errors = process.stderr.read().decode()
        _, status, used = os.wait4(process.pid, 0)
        code = os.waitstatus_to_exitcode(status)
        if code != 0 and not (upto < self.legs and code == -signal.SIGKILL):
            raise AssertionError(f"the lab ended with {code}: {errors}")
        return Stretch(self.done() - before, used.ru_utime + used.ru_stime)

    def audit(self) -> str:
        """What the audit says."""
        done = subprocess.run([TOP / "lab", "chain", "--audit", self.folder], env=around(), stdout=subprocess.PIPE, check=False)
        return done.stdout.decode()

    def faults(self) -> list[str]:
        """Makes the chain with its kills, and says what is wrong."""
        stretches = [self.stretch(self.legs * turn // (KILLS + 1)) for turn in range(1, KILLS + 2)]
        found = [] if self.done() == self.legs else [f"{self.done()} legs are done, not {self.legs}"]
        rows = (self.folder / "course.csv").read_text().splitlines()
        if [row.partition(",")[0] for row in rows[1:]] != [str(leg) for leg in range(self.legs + 1)]:
            found.append("the course lacks legs")
        # (a short chain is made so soon that a kill may find nothing left to stop)
        early, late = stretches[0], stretches[-2]
        if self.legs >= LEGS and min(early.legs, late.legs) < self.legs // (2 * KILLS):
            found.append(f"kills came too late: {stretches}")
        elif self.legs >= LEGS and late.seconds / late.legs > SLOWER * early.seconds / early.legs:
            found.append(f"late legs cost more than early ones: {stretches}")
        said = self.audit()
        return [*found, *([] if said == "yes\n" else [f"the audit says {said!r}"])]


def main() -> int:
    """The command."""
    parser = argparse.ArgumentParser(description=__doc__, formatter_class=argparse.RawDescriptionHelpFormatter)
    parser.add_argument("program", metavar="PROGRAM", nargs="?", type=Path)
    parser.add_argument("--legs", type=int, default=LEGS, help=f"how many ({LEGS})")
    given = parser.parse_args()
    if given.program is not None:
        os.environ["FEAST_PROGRAM"] = str(given.program.resolve())
    with tempfile.TemporaryDirectory() as room:
        chain = LongChain(Path(room), given.legs)
        found = chain.faults()
        size = sum(path.stat().st_size for path in chain.folder.iterdir() if path.is_file())
    print(f"{given.legs} legs, killed {KILLS} times, {size / given.legs:.0f} bytes a leg: {'; '.join(found) or 'goes on and audits'}")
    return 1 if found else 0


if __name__ == "__main__":
    sys.exit(main())
