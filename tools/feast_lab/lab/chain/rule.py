"""How the legs of a chain follow from one another: the chain files of which the program makes them, and their worlds."""
from collections.abc import Iterable, Sequence
from dataclasses import dataclass, replace

from ..base.limits import MOST_LEGS
from ..base.seeds import nth, of_order
from ..formats.leg_report import LegReport
from ..formats.world import World
from ..measure.drift import greatest, plans, tiles_of
from .acts import Acts

NO_DRIFT = "0.0000"  # of the start, and of a single tile
NONE = "none"
SHORT = "short"


@dataclass(frozen=True)
class ChainRule:
    """What a chain was begun with, and its acts."""

    world: World
    seed: int
    step: bool
    acts: Acts

    def attempts_each(self, number: int) -> int:
        """How many attempts each tile makes in a leg."""
        said = self.acts.attempts(number)
        return said if said is not None else self.world.attempts or 0

    def attempts(self, number: int) -> int:
        """How many attempts a leg makes."""
        return self.attempts_each(number) * (self.world.tiles - len(self.world.off))

    def seed_of(self, number: int) -> int:
        """The seed of a leg."""
        return nth(self.seed, self.world.tiles, number - 1)

    def text(self, first: int, legs: int, journal: str, atoms: Iterable[str], acts: str | None = None,
             attempts: int | None = None) -> str:
        """The chain file of some legs, which begins with the atoms that the leg before the first left.

        The acts are those of the chain, unless there are others, as lines of the file. Legs make as many attempts as the
        world says, or so many, if no act says otherwise.
        """
        world = self.world
        lines = ["chain 1", f"tiles {world.tiles_x} {world.tiles_y}", f"size {world.width} {world.height}",
                 *(f"off {tile}" for tile in world.off), f"seed {self.seed}",
                 f"attempts {world.attempts if attempts is None else attempts}", f"legs {legs}", f"first {first}", f"journal {journal}"]
        own = self.acts.lines(first, first + legs - 1) if acts is None else acts
        placed = "\natom ".join(atoms)
        return "".join([*(f"{line}\n" for line in lines), own, f"atom {placed}\n" if placed else ""])

    def part(self, first: int, last: int, atoms: Iterable[str], journal: str = SHORT) -> str:
        """The chain file of the legs from the first to the last, with their acts."""
        return self.text(first, last - first + 1, journal, atoms)

    def within(self, number: int, atoms: Iterable[str]) -> str:
        """The chain file of a leg that is gone on with in its midst, with these atoms: nothing is done to them."""
        return self.text(number, 1, SHORT, atoms, f"act {number} attempts {self.attempts_each(number)}\n")

    def before(self, number: int, atoms: Iterable[str]) -> str:
        """The chain file that does what is done before a leg, and makes no attempt."""
        return self.text(number, 1, SHORT, atoms, self.acts.lines(number, number) + f"act {number} attempts 0\n")

    def drift(self, number: int, report: LegReport) -> str:
        """How far the tiles were apart at the worst moment of a leg, with four places."""
        if self.world.tiles == 1:
            return NO_DRIFT
        planned = plans(replace(self.world, attempts=self.attempts_each(number)))
        return f"{greatest(planned, tiles_of(report.journal_lines)):.4f}"

    def world_of(self, number: int) -> World:
        """The world of a leg, without the atoms with which it begins."""
        seed = self.seed_of(number)
        order = of_order(seed, self.world.tiles) if self.step else list[int]()
        return replace(self.world, seed=seed, order=order, attempts=self.attempts_each(number), atoms=[])

    def world_text(self, number: int, lines: Sequence[str]) -> str:
        """The world of a leg that begins with these atoms, as a file has it."""
        frame = self.world_of(number)
        return frame.front() + "".join(f"atom {line}\n" for line in lines) + frame.back()


def pieces(first: int, last: int) -> list[tuple[int, int]]:
    """Legs in parts that a chain file can have, each by its first and its last."""
    return [(begin, min(begin + MOST_LEGS - 1, last)) for begin in range(first, last + 1, MOST_LEGS)]
