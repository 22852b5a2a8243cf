"""Options that several verbs have."""
import argparse
from functools import partial

from ..base.limits import LEAST_SIDE, MOST_ACROSS, MOST_SIDE
from ..measure.measures import FORMS
from ..worlds.frame import WantedFrame


def add_measure_options(parser: argparse.ArgumentParser) -> None:
    """The options that name measures; `measures` has their columns, in the order in which they were given."""
    for kind, (form, told) in FORMS.items():
        parser.add_argument(f"--{kind}", metavar=form, dest="measures", action="append", default=[],
                            type=partial(column, kind), help=f"{told}; may be given several times")


def column(kind: str, said: str) -> str:
    """The column of a measure, from what stands behind its option."""
    return f"{kind}({''.join(said.split())})"


def add_frame(parser: argparse.ArgumentParser) -> None:
    """The words of the frame of a world, but for its seed."""
    parser.add_argument("--size", metavar=("W", "H"), nargs=2, type=int, required=True,
                        help=f"the sites of a tile, {LEAST_SIDE} to {MOST_SIDE} each way")
    parser.add_argument("--tiles", metavar=("TX", "TY"), nargs=2, type=int, default=[1, 1],
                        help=f"the tiles, 1 to {MOST_ACROSS} each way")
    parser.add_argument("--attempts", metavar="K", type=int, help="how many attempts each tile draws")
    parser.add_argument("--order", metavar="N", type=int, help="the seed from which the turns of tiles in `step` are drawn")


def wanted_frame(arguments: argparse.Namespace) -> WantedFrame:
    """What the words say of the frame of a world."""
    (width, height), (across, down) = arguments.size, arguments.tiles
    return WantedFrame((width, height), (across, down), arguments.seed, arguments.attempts, arguments.order)
