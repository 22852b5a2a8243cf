"""A small sweep in a folder, for the tests."""
import csv
import io
import shutil
from pathlib import Path

import kept_chain
from calls import EXAMPLES, LabCase, Word

WORLD = """feast 1
tiles 2 1
size 8 8
seed 3
attempts 400
atom 4 4 Regulator
atom 11 4 Regulator
"""
SOURCE = (EXAMPLES / "regulator.ulam").read_text()
BIRTH = "--set=Regulator.regulator_birth=5,40"
HERE = Path(__file__).resolve().parent


def contents(folder: Path) -> dict[str, bytes]:
    """All files below a folder of sweeps. Reports are unpacked, since which are packed together is a matter of time."""
    chains = [path.parent for path in folder.rglob("chain.json")]
    found = {path: path.read_bytes() for path in folder.rglob("*") if path.is_file() and path.parent not in chains}
    found |= {chain / name: data for chain in chains for name, data in kept_chain.contents(chain).items()}
    return {str(path.relative_to(folder)): data for path, data in found.items()}


class FolderCase(LabCase):
    """A small world, and a folder `out` for a sweep."""

    def setUp(self) -> None:
        super().setUp()
        self.world = self.file("w", WORLD)
        self.elements = self.file("regulator.ulam", SOURCE)
        self.out = self.room / "out"

    def words(self, *more: Word) -> list[Word]:
        """The words of a sweep of stepped runs."""
        return ["sweep", "--step", *more, self.world, self.elements]

    def rows(self, text: str | None = None) -> list[dict[str, str]]:
        """The rows of a table: that of the folder, unless another is given."""
        return list(csv.DictReader(io.StringIO((self.out / "sweep.csv").read_text() if text is None else text)))

    def chained(self, seed: int, birth: str, *options: Word, world: str = WORLD) -> list[dict[str, str]]:
        """The course of a chain of elements that were changed by hand."""
        hand = self.file("hand.ulam", SOURCE.replace("regulator_birth = 40", f"regulator_birth = {birth}"))
        chain = self.room / "by-hand"
        self.passes("chain", chain, "--step", "--seed", str(seed), *options, self.file("hand.world", world), hand)
        rows = self.rows((chain / "course.csv").read_text())
        shutil.rmtree(chain)
        return rows
