"""The folder of a chain: what it was begun with, its acts, its course, and what is kept of its legs.

  chain.json    what the chain was begun with, and digests of the world and the element files
  start.world, elements/
                copies of these
  0000.atoms    the atoms at the start, as `replay` writes them
  course.csv    a row for each leg
  legs.gz, legs.index
                the reports of legs, packed (packed_legs.py); with its line in the index a leg is done
  NNNN.atoms    the atoms at the end of the last leg that is done, if its report isn't kept
  acts.txt      what was done before legs, an act in a line
"""
import json
import os
from collections.abc import Iterable, Iterator, Sequence
from contextlib import contextmanager
from dataclasses import asdict, dataclass
from functools import cached_property
from pathlib import Path
from typing import Any

from ..base.errors import LabError
from ..base.files import PART, append_to, cause, cut_off, ends_with, read_text
from ..base.inputs import Inputs
from ..base.locks import held
from ..formats.layout import Layout
from ..formats.world import World
from .acts import Act
from .course import COURSE, Course, read_course
from .packed_legs import INDEX, PACKS, PackedLegs

MANIFEST = "chain.json"
ACTS = "acts.txt"
FORM = "feast chain 2"
KINDS = [str, str, list, bool, int, str, int, list]
REPORTS = "reports"


@dataclass(frozen=True)
class Begun:
    """What a chain is begun with: it goes on with the same alone.

    `keep` says whether all reports are kept; if not, the atoms of each leg are whose number `atoms` divides. `at` are the
    acts that were given then.
    """

    form: str
    world: str
    elements: list[str]
    step: bool
    seed: int
    keep: str
    atoms: int
    at: list[str]

    @property
    def keeps_reports(self) -> bool:
        """Whether all reports are kept."""
        return self.keep == REPORTS

    @property
    def every(self) -> int:
        """Of which legs something is kept: of each whose number this divides."""
        return 1 if self.keeps_reports else self.atoms


@dataclass(frozen=True)
class Folder(Inputs):
    """The folder of a chain."""

    @cached_property
    def world(self) -> World:
        """The world with which it was begun."""
        return World.read(self.start)

    def atoms_file(self, leg: int) -> Path:
        """The file of the atoms at the end of a leg, if there is one."""
        return self.path / f"{leg:04}.atoms"

    @property
    def course_file(self) -> Path:
        """The file of the course."""
        return self.path / COURSE

    def packed(self, begun: Begun) -> PackedLegs:
        """What is kept of the legs that are done."""
        return PackedLegs.of(self.path, begun.every, self.world.columns * self.world.rows)

    def done(self) -> int:
        """How many legs are done."""
        return self.packed(self.begun()).done

    def atoms(self, leg: int, begun: Begun) -> str:
        """The atoms at the end of a leg, as `replay` writes them; those of leg 0 are the ones at the start."""
        packed = self.packed(begun)
        if leg > 0 and packed.keeps(leg):
            return packed.report(leg).atoms
        if leg > 0 and leg != packed.done:
            raise LabError(f"{self.path}: the atoms of leg {leg} aren't kept, but those of each leg that {begun.atoms} divides")
        return read_text(self.atoms_file(leg))

    def changed(self, begun: Begun) -> Path | None:
        """The first copy that is not as it was when the chain was begun."""
        return self.other(begun.world, begun.elements)

    def size(self) -> int:
        """How many bytes its files have; 0 if it is gone."""
        try:
            return sum(it.stat().st_size for folder in (self.path, self.copies) for it in os.scandir(folder) if it.is_file())
        except OSError:
            return 0

    @property
    def manifest(self) -> Path:
        """What the chain was begun with. It is put in its place last, so it speaks of files that are there."""
        return self.path / MANIFEST

    @property
    def coming(self) -> Path:
        """The manifest beside its place: it is there from the first moment of a beginning to the last."""
        return self.path / (MANIFEST + PART)

    @property
    def is_begun(self) -> bool:
        """Whether a chain was begun here."""
        return self.manifest.exists()

    def make(self) -> None:
        """Makes the folder, if it isn't there; refuses one that has files and no chain."""
        try:
            self.path.mkdir(parents=True, exist_ok=True)
            names = [it.name for it in self.path.iterdir() if it.suffix != PART]
        except OSError as error:
            raise LabError(f"{self.path}: can't be the folder of a chain: {cause(error)}") from error
        if names and not self.is_begun and not self.coming.exists():
            raise LabError(f"{self.path}: no chain was begun there, and it has other files, such as {min(names)}")

    def begin(self, begun: Begun, world: Path, files: Sequence[Path], atoms: str, course: Course, packs: PackedLegs | None = None) -> None:
        """Begins a chain in an empty folder, or in one where a beginning was stopped.

        With packs, whose file is written already, it begins with the legs of another.
        """
        self.write(self.coming, json.dumps(asdict(begun), indent=2) + "\n")
        self.copy_in(world, files)
        self.write(self.atoms_file(0), atoms)
        if packs is None:
            self.write(self.path / PACKS, b"")
        self.write(self.path / INDEX, packs.text() if packs is not None else "")
        self.write(self.path / ACTS, "".join(f"{text}\n" for text in begun.at))
        self.write(self.course_file, course.text())
        self.settle(self.copies)
        os.replace(self.coming, self.manifest)
        self.settle()

    def act_texts(self) -> list[str]:
        """The acts on record, in their order, without what a kill cut short."""
        return read_text(self.path / ACTS).rpartition("\n")[0].splitlines()

    def acts(self, world: World, layout: Layout) -> list[Act]:
        """The acts on record, each read."""
        record = self.path / ACTS
        found = []
        for number, text in enumerate(self.act_texts(), 1):
            try:
                found.append(Act.of(text, world, layout))
            except LabError as error:
                raise LabError(f"{record}:{number}: {error}") from error
        return found

    def add_acts(self, texts: Iterable[str]) -> None:
        """Puts acts on record behind the others."""
        append_to(self.path / ACTS, "".join(f"{text}\n" for text in texts).encode(), self.is_lasting)

    def take_back(self, text: str) -> None:
        """Takes the last act of this text from the record; if it is the last of all, nothing is written anew."""
        path, line = self.path / ACTS, f"{text}\n".encode()
        if ends_with(path, b"\n" + line):
            cut_off(path, path.stat().st_size - len(line))
            return
        texts = self.act_texts()
        del texts[len(texts) - 1 - texts[::-1].index(text)]
        self.write(self.path / ACTS, "".join(f"{it}\n" for it in texts))

    @contextmanager
    def held(self) -> Iterator[None]:
        """Holds the folder, so that no second lab is at work on the same chain."""
        with held(self.path, "at work on this chain"):
            yield

    def begun(self) -> Begun:
        """What the chain was begun with."""
        path = self.manifest
        if not self.is_begun:
            raise LabError(f"{self.path}: no chain was begun there: it has no file {MANIFEST}")
        try:
            found: Any = json.loads(read_text(path))
            form = found.get("form", "feast chain 1") if "seed" in found else None
        except (ValueError, TypeError, AttributeError, RecursionError) as error:
            raise LabError(f"{path}: no manifest of a chain") from error
        if form not in (FORM, None):
            raise LabError(f"{path}: the chain has the form {form!r}, which this lab doesn't read: it makes and reads the form "
                           f"{FORM!r}; make the chain again, in another folder")
        try:
            begun = Begun(**found)
        except TypeError as error:
            raise LabError(f"{path}: no manifest of a chain") from error
        if json.dumps(found, indent=2) + "\n" != read_text(path) or list(map(type, found.values())) != KINDS or begun.atoms < 1:
            raise LabError(f"{path}: not as the lab wrote it")
        return begun

    def course(self, legs: int, elements: list[str], sites: int) -> Course:
        """The legs that are done, of which there are so many."""
        return read_course(self.course_file, legs, elements, sites)

    def write_course(self, course: Course) -> None:
        """Writes the course anew, since it has other columns."""
        self.write(self.course_file, course.text())
        self.settle()


def refuse_other(folder: Folder, was: Begun, now: Begun, world: Path) -> None:
    """Refuses to go on with something else than the chain was begun with."""
    changed = folder.changed(was)
    if changed is not None:
        raise LabError(f"{changed}: not as it was when the chain was begun")
    if was.world != now.world:
        raise LabError(f"{folder.path}: the chain was begun with another world than {world}; its own is {folder.start}")
    if was.elements != now.elements:
        raise LabError(f"{folder.path}: the chain was begun with other elements; its own are in {folder.copies}")
    for option in ("step", "seed", "keep", "atoms"):
        old, new = getattr(was, option), getattr(now, option)
        if old != new:
            raise LabError(f"{folder.path}: {other_option(option, old, new)}, or name another folder")


def other_option(option: str, old: object, new: object) -> str:
    """That a chain was begun with another value of an option, and what to do."""
    if isinstance(old, bool):
        return f"the chain was begun with --{option}; give it again" if old else f"the chain was begun without --{option}; leave it out"
    return f"the chain was begun with --{option} {old}, not {new}; give --{option} {old}"
