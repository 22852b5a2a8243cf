"""Copies of chains up to a leg: the beginning of a branch, and the fork of a chain that runs."""
import tempfile
from collections.abc import Sequence
from dataclasses import replace
from pathlib import Path

from ..base.errors import LabError
from ..base.files import append_to, read_text, sync
from .course import Course, Leg
from .folder import Begun, Folder
from .packed_legs import PACKS, PackedLegs, packed


def copy_chain(old: Folder, new: Folder, begun: Begun, course: Course, last: int, acts: Sequence[str]) -> None:
    """Begins a chain with the legs of another up to the last one, and with these acts, unless it is begun with them already.

    `begun` and `course` are those of the old chain.
    """
    new.make()
    with new.held():
        if new.is_begun:
            packs = new.packed(new.begun())
            there = new.course(packs.done, course.elements, course.sites)
            if len(there.legs) <= last or bare(there.legs[:last + 1]) != bare(course.legs[:last + 1]):
                raise LabError(f"{new.path}: its legs are not those of {old.path}")
            return
        if last > 0 and not old.packed(begun).keeps(last):
            new.write(new.atoms_file(last), old.atoms(last, begun))
        packs = copied_packs(old.packed(begun), new, last)
        with tempfile.TemporaryDirectory() as room:
            files = old.with_plain_names(Path(room))
            new.begin(replace(begun, at=list(acts)), old.start, files, read_text(old.atoms_file(0)), course.upto(last), packs)


def copied_packs(old: PackedLegs, new: Folder, last: int) -> PackedLegs:
    """Copies the packs of a chain, up to that of a leg, from which those behind it are left out."""
    found = PackedLegs(new.path, old.every)
    place = new.path / PACKS
    new.write(place, b"")
    for pack in old.packs:
        if pack.last <= last:
            append_to(place, old.packed_data(pack))
            found.add(pack.last, pack.end - pack.begin, pack.size)
    if last > found.done:
        part = b"".join(report.data for leg, report in old.legs(old.pack_of(last)).items() if leg <= last)
        data = packed(part)
        append_to(place, data)
        found.add(last, len(data), len(part))
    if new.is_lasting:
        sync(place)
    return found


def bare(legs: Sequence[Leg]) -> list[Leg]:
    """Legs without what a chain may be asked for later: what is measured of them, how many of their events failed, and how far
    tiles were apart."""
    return [replace(leg, measured=[], failed=None, drift=None) for leg in legs]
