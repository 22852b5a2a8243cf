"""Whether the plain program with tiles does what the program does: compares their reports.

    python3 bench/plain.py                    stepped runs and runs of one tile byte for byte, 100 threaded ones by audit
    python3 bench/plain.py --program PROGRAM  the same beside another build
    python3 bench/plain.py --source FILE      the same of another plain program

It ends at the first difference, or at a call that fails or takes too long, and keeps that world. See README.md beside this file.
"""

import argparse
import dataclasses
import pathlib
import random
import shutil
import subprocess
import sys
import tempfile

sys.path.insert(0, str(pathlib.Path(__file__).resolve().parent))
sys.dont_write_bytecode = True
from children import called, end_in_order  # noqa: E402
from whole import HERE, build_plain, program_of  # noqa: E402
from worlds import SORTERS, WANDERERS, Mix  # noqa: E402

# seconds that a call may take
TIMEOUT = 300


@dataclasses.dataclass(frozen=True)
class Case:
    """A world: its tiles across and down, their columns and rows, and how many attempts each of them makes."""

    tiles: tuple[int, int]
    size: tuple[int, int]
    attempts: int
    off: tuple[int, ...] = ()
    scripted: bool = False
    uneven: int = 1  # how many times as many attempts the first tile makes, if they are scripted
    listed: bool = False
    mix: Mix = dataclasses.field(default=WANDERERS, repr=False)

    def text(self, seed: int) -> str:
        """The world, all of it drawn from a seed."""
        draw = random.Random(seed)
        lines = ["feast 2", f"tiles {self.tiles[0]} {self.tiles[1]}", f"size {self.size[0]} {self.size[1]}"]
        lines += [f"off {tile}" for tile in self.off]
        lines += self._tries(draw) if self.scripted else [f"seed {draw.getrandbits(64)}", f"attempts {self.attempts}"]
        lines += self._atoms(draw)
        if self.listed:
            lines.append(f"order {' '.join(str(draw.choice(self._on())) for _ in range(8 * self.attempts))}")
        else:
            lines.append(f"order seed {draw.getrandbits(64)}")
        return "\n".join(lines) + "\n"

    def _on(self) -> list[int]:
        """The tiles that are on."""
        return [tile for tile in range(self.tiles[0] * self.tiles[1]) if tile not in self.off]

    def _tile(self, x: int, y: int) -> int:
        """The tile that owns a site."""
        return y // self.size[1] * self.tiles[0] + x // self.size[0]

    def _tries(self, draw: random.Random) -> list[str]:
        """The attempts written out, tile by tile."""
        lines: list[str] = []
        for tile in self._on():
            left, top = tile % self.tiles[0] * self.size[0], tile // self.tiles[0] * self.size[1]
            for _ in range(self.attempts * (1 if lines else self.uneven)):
                x, y = left + draw.randrange(self.size[0]), top + draw.randrange(self.size[1])
                lines.append(f"try {tile} {x} {y} {draw.getrandbits(64):016x}")
        return lines

    def _atoms(self, draw: random.Random) -> list[str]:
        """One site in three with an atom, half of them with a state."""
        lines = []
        for y in range(self.tiles[1] * self.size[1]):
            for x in range(self.tiles[0] * self.size[0]):
                if self._tile(x, y) not in self.off and draw.randrange(3) == 0:
                    state = draw.choice(("", f" {draw.getrandbits(71):018x}"))
                    lines.append(f"atom {x} {y} {draw.choice(self.mix.shares).name}{state}")
        return lines


ALONE = [
    Case((1, 1), (8, 8), 500),
    Case((1, 1), (64, 64), 20_000),
    Case((1, 1), (23, 9), 1_000, scripted=True),
    Case((1, 1), (20, 20), 20_000, mix=SORTERS),
]
STEPPED = [
    *ALONE,
    Case((2, 1), (8, 8), 500),
    Case((2, 2), (8, 8), 1_000, listed=True),
    Case((3, 3), (8, 11), 1_000),
    Case((2, 3), (16, 12), 1_000, scripted=True),
    Case((4, 3), (9, 8), 500, off=(0, 5, 6)),
    Case((3, 3), (20, 17), 1_000, off=(4,), listed=True),
    Case((2, 2), (64, 64), 5_000),
    Case((8, 8), (8, 8), 200),
    Case((3, 3), (12, 9), 2_000, off=(2,), mix=SORTERS),
    Case((4, 4), (64, 64), 2_500, scripted=True, uneven=20),
    Case((8, 8), (9, 10), 100, off=(0, 9, 27, 62, 63), mix=SORTERS),
    Case((8, 1), (8, 64), 200, off=(5,)),
]
THREADED = [
    Case((2, 2), (8, 8), 20_000),
    Case((2, 2), (64, 64), 20_000),
    Case((3, 3), (10, 8), 5_000, off=(4,)),
    Case((8, 8), (8, 8), 1_000),
    Case((4, 2), (16, 40), 5_000),
    Case((3, 2), (16, 16), 10_000, mix=SORTERS),
    Case((8, 8), (16, 16), 1_000, off=(0, 9, 27, 62, 63)),
    Case((8, 1), (8, 64), 2_000, off=(5,)),
    Case((4, 4), (64, 64), 1_000, scripted=True, uneven=20),
]


class Wrong(Exception):
    """What is wrong with a report, or with a call that was to write one."""


@dataclasses.dataclass(frozen=True)
class Bench:
    """Both programs, the folder of their files, and the seconds that a call may take."""

    program: pathlib.Path
    plain: pathlib.Path
    folder: pathlib.Path
    timeout: float

    @property
    def files(self) -> tuple[pathlib.Path, ...]:
        """The files of a world, its elements, and a report of it that threads made."""
        return self.folder / "world", self.folder / "elements", self.folder / "report"

    def make(self, case: Case, seed: int) -> None:
        """Makes a case's world and elements."""
        world, elements, report = self.files
        world.write_text(case.text(seed))
        elements.write_text(case.mix.text)
        report.unlink(missing_ok=True)

    def written(self, *words: str | pathlib.Path) -> bytes:
        """What a program writes. Wrong unless its status is 0, in time."""
        try:
            done = called(words, timeout=self.timeout)
        except (OSError, subprocess.TimeoutExpired) as fault:
            raise Wrong(str(fault)) from fault
        if done.returncode != 0:
            said = (done.stdout[:200] + done.stderr[:500]).decode(errors="replace")
            raise Wrong(f"{words[0]} {words[1]} ended with {done.returncode}: {said}")
        return done.stdout

    def compare(self, form: str, case: Case, seed: int) -> None:
        """Wrong unless both programs write the same report."""
        self.make(case, seed)
        world, elements, _ = self.files
        if self.written(self.program, form, world, elements) != self.written(self.plain, form, world):
            raise Wrong(f"{form} {case} with seed {seed}: the reports differ")

    def abandoned(self, case: Case, seed: int) -> int:
        """How many attempts a threaded report abandoned. Wrong unless it audits to `yes`."""
        self.make(case, seed)
        world, elements, report = self.files
        report.write_bytes(self.written(self.plain, "run", world))
        said = self.written(self.program, "audit", world, report, elements).decode(errors="replace").strip()
        if said != "yes":
            raise Wrong(f"run {case} with seed {seed}: the audit says {said}")
        last = next(line for line in report.read_bytes().splitlines() if line.startswith(b"abandoned "))
        return int(last.split()[1])

    def keep(self) -> pathlib.Path:
        """Puts the files where they stay, and returns the folder."""
        kept = pathlib.Path(tempfile.mkdtemp(prefix="plain-"))
        for path in self.files:
            if path.exists():
                shutil.move(path, kept)
        return kept


def compare_all(bench: Bench, seeds: int, threaded: int) -> None:
    """Compares all reports, and tells how many there were. Wrong at the first that is."""
    for seed in range(seeds):
        for form, cases in (("run", ALONE), ("step", STEPPED)):
            for case in cases:
                bench.compare(form, case, seed)
    print(f"{seeds * (len(ALONE) + len(STEPPED))} reports of one order are the same byte for byte", flush=True)
    abandoned = [bench.abandoned(THREADED[i % len(THREADED)], i) for i in range(threaded)]
    some = sum(count > 0 for count in abandoned)
    print(f"{len(abandoned)} threaded reports audit to yes; {some} of them have abandoned attempts, {sum(abandoned)} in all")


def main() -> None:
    """The command."""
    parser = argparse.ArgumentParser(description="Whether the plain program with tiles does what the program does.")
    parser.add_argument("--program", type=pathlib.Path, metavar="PROGRAM", help="another build of the program")
    parser.add_argument("--source", type=pathlib.Path, default=HERE / "plain.rs", metavar="FILE", help="another plain program")
    parser.add_argument("--seeds", type=int, default=3, metavar="N", help="seeds of each stepped world (3)")
    parser.add_argument("--threaded", type=int, default=100, metavar="N", help="threaded reports (100)")
    parser.add_argument("--timeout", type=float, default=TIMEOUT, metavar="N", help=f"seconds that a call may take ({TIMEOUT})")
    given = parser.parse_args()
    end_in_order()
    program = program_of(given.program)
    with tempfile.TemporaryDirectory() as name:
        folder = pathlib.Path(name)
        bench = Bench(program, build_plain(folder, given.source), folder, given.timeout)
        try:
            compare_all(bench, given.seeds, given.threaded)
        except Wrong as fault:
            sys.exit(f"{fault}; its files are in {bench.keep()}")


if __name__ == "__main__":
    main()
