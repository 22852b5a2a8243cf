"""What a chain keeps of its legs, in the program's own texts.

DIR is the folder of a chain. Without an option the report of the whole chain is written, as the program wrote it leg by leg:
with --keep reports in short, and with --chain you get the chain file to which it belongs, for `feast audit CHAIN REPORT
FILE..`. With --leg K both are those of leg K alone. Further texts of a leg are --whole, its whole report as of a run, --world,
the world of that run, and --atoms, the atoms that it left, for which K may be 0.

Instead of DIR you can give a report that is packed by gzip.
"""
import argparse
import sys
from collections.abc import Iterator
from pathlib import Path

from ..base.errors import LabError
from ..base.program import Program
from ..chain.folder import Folder
from ..chain.kept_legs import KeptLegs
from ..chain.rule import NONE, SHORT
from ..formats.report import read_report


def add_arguments(parser: argparse.ArgumentParser) -> None:
    """The words of the verb."""
    parser.add_argument("place", metavar="DIR", type=Path, help="the folder of a chain, or a report that is packed by gzip")
    parser.add_argument("--leg", metavar="K", type=int, help="of this leg alone")
    form = parser.add_mutually_exclusive_group()
    form.add_argument("--chain", action="store_true", help="the chain file")
    form.add_argument("--whole", action="store_true", help="the whole report of leg K")
    form.add_argument("--world", action="store_true", help="the world of leg K")
    form.add_argument("--atoms", action="store_true", help="the atoms that leg K left")


def run(arguments: argparse.Namespace) -> int:
    """Writes what is asked for to standard output."""
    if not arguments.place.is_dir():
        if arguments.leg is not None or arguments.chain or arguments.whole or arguments.world or arguments.atoms:
            raise LabError(f"{arguments.place}: the options are for the folder of a chain")
        sys.stdout.write(read_report(arguments.place).decode("latin-1"))
        return 0
    for text in texts(arguments, KeptLegs.of(Folder(arguments.place), Program.find())):
        sys.stdout.write(text)
    return 0


def texts(arguments: argparse.Namespace, legs: KeptLegs) -> Iterator[str]:
    """What is asked for, in pieces."""
    done, leg = legs.packs.done, arguments.leg
    is_single = arguments.whole or arguments.world or arguments.atoms
    if leg is None and is_single:
        raise LabError("--whole, --world and --atoms are of a single leg: --leg K")
    if leg is not None and not (leg == 0 and arguments.atoms) and not 1 <= leg <= done:
        raise LabError(f"--leg {leg}: {legs.maker.folder.path} has the legs 1 to {done}")
    if arguments.atoms:
        yield legs.maker.folder.atoms(leg, legs.maker.begun)
        return
    if not legs.maker.begun.keeps_reports and not arguments.chain:
        raise LabError(f"{legs.maker.folder.path}: the chain keeps no reports; --leg K --atoms writes the atoms that a leg left")
    if arguments.world:
        yield legs.world_text(leg)
    elif arguments.whole:
        yield legs.whole(leg).decode()
    elif arguments.chain:
        first, last = (1, done) if leg is None else (leg, leg)
        yield legs.maker.rule.part(first, last, legs.left(first - 1), SHORT if legs.maker.begun.keeps_reports else NONE)
    elif leg is not None:
        yield legs.report(leg).data.decode()
    else:
        for pack in legs.packs.packs:
            yield legs.packs.data(pack).decode("latin-1")
