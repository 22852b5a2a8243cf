"""A chain that is thinned out: a copy of it that keeps the atoms of each N-th leg and of the last, and no reports."""
import tempfile
from collections.abc import Sequence
from dataclasses import replace
from pathlib import Path

from ..base.errors import LabError
from ..base.files import append_to, read_text, sync
from .course import Course
from .folder import Begun, Folder
from .packed_legs import MOST_WAITING, PACKS, PackedLegs, packed

NONE = "none"


def thin(old: Folder, begun: Begun, course: Course, acts: Sequence[str], every: int, new: Folder) -> None:
    """Begins a chain in a new folder with all legs of another that are done, of which it keeps so few. Its course has each."""
    if every % begun.every:
        raise LabError(f"the chain keeps the atoms of every {begun.every}th leg alone, so {begun.every} has to divide the number, "
                       f"and doesn't divide {every}")
    packs = old.packed(begun)
    new.make()
    with new.held(), tempfile.TemporaryDirectory() as room:
        if packs.done % every:
            new.write(new.atoms_file(packs.done), old.atoms(packs.done, begun))
        kept = thinned(packs, every, new)
        new.begin(replace(begun, keep=NONE, atoms=every, at=list(acts)), old.start, old.with_plain_names(Path(room)),
                  read_text(old.atoms_file(0)), course, kept)


def thinned(old: PackedLegs, every: int, new: Folder) -> PackedLegs:
    """Writes the packs of a chain anew, with each N-th leg alone and its events only counted."""
    found, place = PackedLegs(new.path, every), new.path / PACKS
    new.write(place, b"")
    parts: list[bytes] = []
    for pack in old.packs:
        if any(leg % every == 0 for leg in old.kept(pack)):
            parts += [report.counted().data for leg, report in old.legs(pack).items() if leg % every == 0]
        if sum(map(len, parts)) > MOST_WAITING or pack is old.packs[-1]:
            whole = b"".join(parts)
            data = packed(whole)
            append_to(place, data)
            found.add(pack.last, len(data), len(whole))
            parts = []
    if new.is_lasting:
        sync(place)
    return found
