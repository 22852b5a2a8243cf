"""The stack machine: it makes the events of elements again, one at a time, from their code.

It is a second machine beside the program's, made after `docs/stack-code.md`, and much slower.
"""
from collections.abc import Sequence
from dataclasses import dataclass

from ..base.limits import STATE_BITS, MOST_TURNS
from .code import ElementCode
from .event import Event, Failed
from .steps import step_of


@dataclass(frozen=True)
class Ending:
    """How an event ended: the cause (0 if it didn't fail), the last place, how many instructions and turns it took."""

    cause: int
    place: int
    instructions: int
    turns: int


class Machine:
    """Makes events on the cells of a plane, of which the last stands for all sites that aren't live and is empty."""

    def __init__(self, codes: Sequence[ElementCode], cells: list[int]) -> None:
        self.event = Event(cells)
        self.slots = {code.number: code.functions[0].slots for code in codes}
        self.steps = {code.number: [step_of(self.event, code, place) for place in range(len(code.instructions))]
                      for code in codes}

    def act(self, sites: Sequence[int], seed: int) -> Ending:
        """Makes the event of the atom at the first of the sites; each site is the place of its cell.

        The event's `before` then has the cells that it wrote, with what they were. An event that fails leaves all as
        it was but its centre, which becomes empty.
        """
        event = self.event
        acting = event.cells[sites[0]] >> STATE_BITS
        event.begin(sites, seed, self.slots[acting])
        steps = self.steps[acting]
        place = last = count = cause = 0
        try:
            while place >= 0:
                last = place
                count += 1
                place = steps[place]()
        except Failed as failed:
            cause = failed.args[0]
            event.fail()
        return Ending(cause, last, count, MOST_TURNS - event.turns)
