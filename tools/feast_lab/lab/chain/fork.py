"""Chains that come of others: a copy up to a leg, and a new one that begins with the plane of another."""
import tempfile
from collections.abc import Iterator, Sequence
from contextlib import contextmanager
from dataclasses import replace
from pathlib import Path

from ..base.errors import LabError
from ..base.files import write_new
from ..base.program import Program
from ..formats.layout import Layout
from .branch import is_before
from .copies import copy_chain
from .course import Course
from .folder import Begun, Folder
from .legs import LegMaker
from .start import Options, Start


def free_folder(beside: Path, word: str) -> Path:
    """A folder that isn't there yet, beside another: NAME-WORD1, NAME-WORD2 .."""
    whole = beside.resolve()
    number = 1
    while (found := whole.with_name(f"{whole.name}-{word}{number}")).exists():
        number += 1
    return found


def fork(folder: Folder, begun: Begun, course: Course, acts: Sequence[str], leg: int, to: Path) -> None:
    """Copies a chain up to a leg that is done, with the acts before it and the leg behind it, into a new folder."""
    copy_chain(folder, Folder(to), begun, course, leg, [text for text in acts if is_before(text, leg + 1)])


@contextmanager
def anew(program: Program, maker: LegMaker, number: int, atoms: Sequence[str], files: Sequence[Path]) -> Iterator[Start]:
    """What a new chain is to be begun with: the atoms and the seed with which a leg of another would begin, and other elements.

    Refuses element files that the program refuses, and those that lack an element of which there are atoms.
    """
    lost = {line.split(" ")[2] for line in atoms} - set(Layout.of(program, files).elements)
    if lost:
        raise LabError(f"the plane has atoms of {min(lost)}, which no file has as an element now")
    front = replace(maker.rule.world, seed=maker.rule.seed_of(number), atoms=[], order=[]).front()
    with tempfile.TemporaryDirectory() as room:
        path = Path(room) / "plane"
        write_new(path, front + "".join(f"atom {line}\n" for line in atoms))
        begun = maker.begun
        yield Start.of(program, path, files, Options(begun.step, None, begun.keep, begun.atoms))
