"""The chain that is to be shown at work: begun, or gone on with."""
from collections.abc import Sequence
from dataclasses import dataclass
from pathlib import Path

from ..base.errors import LabError
from ..chain.folder import Folder
from ..chain.start import Options, Start, going_on
from ..pictures.marks import marks
from .chain import Live


@dataclass(frozen=True)
class WantedLive:
    """The folder of a chain, and what it is to begin with; without a world it is gone on with."""

    folder: Path
    world: Path | None
    files: Sequence[Path]
    step: bool
    seed: int | None
    keep: str | None


def opened(live: Live, wanted: WantedLive) -> None:
    """Opens the chain that is wanted, and holds it."""
    folder = Folder(wanted.folder)
    if wanted.world is None:
        if wanted.step or wanted.seed is not None or wanted.keep is not None:
            raise LabError("--step, --seed and --keep are for a chain to begin: they take WORLD FILE..")
        folder.begun()
        live.held.enter_context(folder.held())
        live.begin(*going_on(live.program, folder))
        return
    if not wanted.files:
        raise LabError("a chain is begun with DIR WORLD FILE..; to go on with one DIR is enough")
    start = Start.of(live.program, wanted.world, wanted.files, Options(wanted.step, wanted.seed, wanted.keep or "reports"))
    marks(start.elements, wanted.files)  # refuses faulty ones before the chain is begun
    folder.make()
    live.held.enter_context(folder.held())
    live.begin(*start.opened(folder))
