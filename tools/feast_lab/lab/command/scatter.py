"""A world whose atoms lie at random.

A fill Element=PART[:member=value,..] puts an atom of that element on about this part of the sites, from 0 to 1
(`0.3`), with these values of its members, and all others 0, as for `paint`. Each site is filled by itself, whatever
is beside it, so the number of atoms differs from seed to seed. There may be several fills, also of one element; a
site has an atom of one of them at most, so their parts come to 1 at most.

The world goes to standard output. The fills are drawn from the seed N by another generator than the attempts; the
same words make the same world on each machine. With --attempts each tile draws so many attempts, from the same seed.
"""
import argparse
import sys

from ..base.errors import LabError
from ..base.program import Program
from ..formats.layout import Layout
from ..worlds.fill import Fill, scattered
from .options import add_frame, wanted_frame


def add_arguments(parser: argparse.ArgumentParser) -> None:
    """The words of the verb."""
    parser.add_argument("--fill", metavar="Element=PART[:member=value,..]", dest="fills", action="append", required=True,
                        help="an atom, and the part of the sites that have it; may be given several times")
    add_frame(parser)
    parser.add_argument("--seed", metavar="N", type=int, required=True,
                        help="the seed of the fills and, with --attempts, of the attempts")
    parser.add_argument("files", metavar="FILE", nargs="+", help="the element files")


def run(arguments: argparse.Namespace) -> int:
    """Writes the world to standard output."""
    layout = Layout.of(Program.find(), arguments.files)
    world, seed = wanted_frame(arguments).world(), arguments.seed
    fills = [Fill.of(text, layout) for text in arguments.fills]
    whole = sum(fill.part for fill in fills)
    if whole > 1:
        raise LabError(f"--fill: the parts of the sites come to {float(whole):g}, and to 1 at most")
    world.atoms = scattered(world, fills, seed)
    if world.attempts is None:
        world.seed = None
    sys.stdout.write(world.text())
    return 0
