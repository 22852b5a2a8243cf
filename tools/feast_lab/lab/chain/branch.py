"""A branch of a chain: a chain of its own, whose first legs are copies of another's, and which goes on from there."""
from dataclasses import dataclass, replace
from pathlib import Path

from ..base.errors import LabError
from ..base.program import Program
from ..formats.layout import Layout
from .copies import copy_chain
from .folder import Begun, Folder
from .making import WantedChain
from .start import Options, acts_of


@dataclass(frozen=True)
class Origin:
    """The chain from which a branch comes, and what that was begun with."""

    folder: Folder
    begun: Begun

    @staticmethod
    def of(path: Path) -> "Origin":
        """The chain of a folder. Refuses one whose files are not as they were."""
        folder = Folder(path)
        begun = folder.begun()
        changed = folder.changed(begun)
        if changed is not None:
            raise LabError(f"{changed}: not as it was when the chain was begun")
        return Origin(folder, begun)

    def branch(self, last: str, wanted: WantedChain) -> WantedChain:
        """Begins a chain as a branch behind a leg, a word, unless it is one; gives back what is wanted of it then.

        It takes from the other chain the world, the element files, the seed, whether the legs are stepped and the reports
        kept, and the acts before the legs that are copied.
        """
        old, begun = self.folder, self.begun
        world, layout = old.world, Layout.of(Program.find(), old.files)
        course = old.course(old.packed(begun).done, layout.elements, world.sites)
        if not last.isdecimal() or int(last) >= len(course.legs):
            raise LabError(f"--from {old.path} {last}: the chain has the legs 0 to {len(course.legs) - 1}, and no leg {last}")
        new = acts_of(wanted.options.at, world, layout)
        for act in new:
            if int(last) > 0 and (act.is_every or act.leg <= int(last)):
                raise LabError(f"--at {act.text}: the branch begins behind leg {last}")
        acts = [*(act for act in old.act_texts() if is_before(act, int(last))), *(act.text for act in new)]
        copy_chain(old, Folder(wanted.folder, is_lasting=True), begun, course, int(last), acts)
        options = Options(begun.step, begun.seed, begun.keep, begun.atoms, acts)
        return replace(wanted, world=old.start, files=old.files, options=options)


def is_before(act: str, last: int) -> bool:
    """Whether an act on record is of a leg up to the last, or of many."""
    return act.startswith("every:") or int(act.partition(":")[0]) <= last
