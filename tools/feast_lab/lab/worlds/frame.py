"""New worlds: their frame, and atoms that are described by words."""
from dataclasses import dataclass

from ..base.errors import LabError
from ..base.limits import LEAST_SIDE, MOST_ACROSS, MOST_ATTEMPTS, MOST_SIDE
from ..base.seeds import MODULUS
from ..formats.layout import Layout
from ..formats.values import state_of
from ..formats.world import World


@dataclass(frozen=True)
class WantedFrame:
    """What a world is to be but for its atoms, as options say it: the sites of a tile and the tiles, each way."""

    size: tuple[int, int]
    tiles: tuple[int, int]
    seed: int | None
    attempts: int | None
    order: int | None

    def world(self) -> World:
        """The world without its atoms. Refuses, by its option, what no world has."""
        for option, values, least, most in (("tiles", self.tiles, 1, MOST_ACROSS), ("size", self.size, LEAST_SIDE, MOST_SIDE)):
            if not all(least <= value <= most for value in values):
                raise LabError(f"--{option} {values[0]} {values[1]}: both have to be from {least} to {most}")
        world = World(*self.tiles, *self.size, seed=self.seed, attempts=self.attempts)
        if self.order is not None:
            world.order = self.order
        for option, seed in (("order", self.order), ("seed", self.seed)):
            if seed is not None and not 0 <= seed < MODULUS:
                raise LabError(f"--{option} {seed}: a seed is from 0 to {MODULUS - 1}")
        most = MOST_ATTEMPTS // world.tiles
        if world.attempts is not None and not 0 <= world.attempts <= most:
            raise LabError(f"--attempts {world.attempts}: {world.tiles} tiles may have from 0 to {most} each")
        return world


def state(option: str, layout: Layout, element: str, members: str | None) -> int:
    """The state of an atom of an element, from the words `member=value,..` of an option, which a refusal names."""
    try:
        return state_of(layout, element, members or "")
    except LabError as error:
        raise LabError(f"{option}: {error}") from error
