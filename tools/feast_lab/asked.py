"""Functions of the user's own that say when a chain is over."""
from collections.abc import Callable
from dataclasses import dataclass
from functools import cached_property
from pathlib import Path
from threading import Lock

from .chains import Chain
from .lab.measure.until import Ends, LegEnd, OfChain
from .moments import Moment

Until = str | Callable[[Moment], bool]  # a rule as `./lab chain --until` has it, or a function of the plane at the end of a leg


def asked(until: Until | None) -> str | OfChain | None:
    """What the lab heeds for a rule or a function. Chains that are made side by side ask a function one after another."""
    if until is None or isinstance(until, str):
        return until
    function, turn = until, Lock()

    def of_chain(folder: Path) -> Ends:
        """What asks the function of the chain of a folder."""
        return Asked(function, folder, turn)

    return of_chain


@dataclass
class Asked:
    """A function, and the folder of a chain of which it is asked."""

    function: Callable[[Moment], bool]
    folder: Path
    turn: Lock

    @cached_property
    def chain(self) -> Chain:
        """The chain, once it is begun."""
        return Chain(self.folder)

    def __call__(self, end: LegEnd) -> bool:
        """What the function says of the plane at the end of a leg."""
        plane = self.chain.moment(end.leg, end.events, end.atoms)
        with self.turn:
            return bool(self.function(plane))
