"""What a run begins with: a world and element files that the program has read once."""
import tempfile
from collections.abc import Sequence
from pathlib import Path

from ..base.errors import LabError
from ..base.files import write_new
from ..base.program import Program
from ..base.seeds import MODULUS
from ..formats.world import World

NO_EVENTS = "feast 1\natoms 0\njournal 0\nabandoned 0\n"


def first_atoms(program: Program, world: Path, files: Sequence[str | Path], cwd: Path | None = None) -> str:
    """The atoms that a world begins with, as `replay` writes them; refuses what a run would refuse."""
    with tempfile.TemporaryDirectory() as room:
        journal = Path(room) / "journal"
        write_new(journal, NO_EVENTS)
        return program.call(["replay", world, journal, *files], cwd).text


def drawn_world(path: Path) -> World:
    """A world that draws its attempts, so that another seed makes another run of it."""
    world = World.read(path)
    if world.seed is None:
        raise LabError(f"{path}: its attempts have to be drawn, by lines `seed N` and `attempts K`")
    return world


def first_seed(world: World, option: int | None) -> int:
    """The first seed of several runs: that of the option --seed, or else the world's own."""
    seed = world.seed if option is None else option
    if seed is None or not 0 <= seed < MODULUS:
        raise LabError(f"--seed {seed}: a seed is from 0 to {MODULUS - 1}")
    return seed
