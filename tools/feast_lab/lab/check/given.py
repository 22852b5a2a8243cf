"""The files that a check is given, each for what it is."""
import os
import tempfile
from collections.abc import Sequence
from dataclasses import dataclass
from pathlib import Path

from ..base.errors import LabError
from ..base.program import Program, Refusal
from ..ulam.tokens import Source
from ..worlds.starting import first_atoms
from .fault import RefusalLine

MAGIC = "FEASTC\1\0"
ALIKE = 6  # how many of these bytes a file has in their places that is to be a code file
NO_ATTEMPTS = "feast 1\ntiles 1 1\nsize 8 8\n"


@dataclass(frozen=True)
class Given:
    """Element files, with a world and the report of its run if they are given; or a code file alone."""

    files: Sequence[Source]
    world: Source | None = None
    report: Source | None = None
    code: Source | None = None

    @staticmethod
    def of(sources: Sequence[Source]) -> "Given":
        """What the files are, by what they begin with."""
        first, *rest = sources
        if is_code(first):
            if rest:
                raise LabError(f"{first.name}: a code file, which is checked by itself")
            return Given([], code=first)
        if not is_world(first):
            return Given(sources)
        report, files = (rest[0], rest[1:]) if rest and is_report(rest[0]) else (None, rest)
        if not files:
            raise LabError(f"{first.name}: a world; name the element files behind it")
        return Given(files, first, report)

    def source(self, refused: RefusalLine) -> Source:
        """The file that is refused."""
        of_code = {"E6": self.code, "E7": self.world, "E8": self.report}
        found = of_code.get(refused.code[:2]) if refused.code != "E60" else None
        return found or next(it for it in self.files if it.name == refused.name)

    def call(self, program: Program) -> None:
        """Has the program check the files; raises its refusal."""
        names = [source.name for source in self.files]
        if self.code is not None:
            with tempfile.TemporaryDirectory() as room:
                world = Path(room) / "world"
                world.write_text(NO_ATTEMPTS)
                program.call(["steppack", world, self.code.name])
        elif self.world is None:
            program.call(["check", *names])
        elif self.report is None and is_chain(self.world):
            passes_chain(program, self.world.name, names)
        elif self.report is None:
            first_atoms(program, Path(self.world.name), names)
        else:
            program.call(["replay", self.world.name, self.report.name, *names])


def passes_chain(program: Program, chain: str, files: Sequence[str]) -> None:
    """Has the program read a chain with its elements, and then no report; raises what it refuses before that."""
    try:
        program.call(["audit", chain, os.devnull, *files])
    except Refusal as refusal:
        if not str(refusal).startswith(f"{os.devnull}:"):
            raise


def first_line(source: Source) -> str:
    """The first line that a world or a chain doesn't skip."""
    return next((line for line in source.text.split("\n", 100) if line.strip() and not line.startswith("#")), "")


def is_chain(source: Source) -> bool:
    """Whether a file is to be read as a chain."""
    return first_line(source).startswith("chain")


def is_world(source: Source) -> bool:
    """Whether a file is to be read as a world or a chain."""
    return source.name.endswith((".world", ".chain")) or first_line(source).startswith("feast") or is_chain(source)


def is_report(source: Source) -> bool:
    """Whether a file is to be read as a report."""
    return source.text.startswith("feast 1\natoms ")


def is_code(source: Source) -> bool:
    """Whether a file is to be read as a code file: nearly all of what it begins with is what one begins with."""
    return sum(one == other for one, other in zip(source.text, MAGIC)) >= ALIKE
