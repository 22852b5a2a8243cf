"""The legs of a chain that keeps reports, each as a run of its own world."""
from collections import deque

from ..base.errors import LabError
from ..base.program import Program
from ..formats.leg_report import LegReport
from ..formats.outcome import atom_lines
from ..formats.report import Report
from ..formats.whole import whole_report
from ..measure.rates import Rates
from .folder import Folder
from .legs import LegMaker
from .packed_legs import PackedLegs
from .start import chain_of

AT_HAND = 2  # so many packs


class KeptLegs:
    """The legs of a chain, counted from 1. The packs of the legs that were asked for last are at hand still: that of a leg, and
    that of the leg before, whose atoms it begins with."""

    def __init__(self, maker: LegMaker, packs: PackedLegs) -> None:
        self.maker = maker
        self.packs = packs
        self.opened: deque[dict[int, LegReport]] = deque(maxlen=AT_HAND)

    @staticmethod
    def of(folder: Folder, program: Program | None = None) -> "KeptLegs":
        """The legs of a folder."""
        maker, _ = chain_of(program or Program.find(), folder)
        return KeptLegs(maker, folder.packed(maker.begun))

    def name(self, number: int) -> str:
        """What a leg is called where something is wrong with it."""
        return f"{self.maker.folder.path}: leg {number}"

    def report(self, number: int) -> LegReport:
        """The short report of a leg."""
        for legs in self.opened:
            if number in legs:
                return legs[number]
        self.opened.append(self.packs.legs(self.packs.pack_of(number)))
        return self.opened[-1][number]

    def whole(self, number: int) -> bytes:
        """The whole report of a leg."""
        try:
            return whole_report(self.report(number), self.maker.rule.world_of(number))
        except (ValueError, LookupError) as error:
            raise LabError(f"{self.name(number)}: its report is not one of its world") from error

    def left(self, number: int) -> list[str]:
        """The lines of the atoms that a leg left; leg 0 is the start."""
        if number == 0:
            return atom_lines(self.maker.folder.atoms(0, self.maker.begun))
        return atom_lines(self.report(number).atoms)

    def begun(self, number: int) -> list[str]:
        """The lines of the atoms with which a leg begins."""
        return list(self.maker.before(number, self.left(number - 1)))

    def world_text(self, number: int) -> str:
        """The world of a leg, as a file has it."""
        return self.maker.rule.world_text(number, self.begun(number))

    def rates(self, number: int) -> Rates:
        """The rates of a leg."""
        name = self.name(number)
        return Rates.of_run(self.maker.rule.world_of(number), Report.of(self.maker.folder.path, self.whole(number)), name, name)
