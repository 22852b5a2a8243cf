"""How many events and abandoned attempts each site of a run or a chain had, as CSV, and a heat map of them.

A row is a site with its tile, or with --by tile a tile with the least, the mean and the greatest number of
its sites, and its drift: how far it was ahead of the slowest tile, at the worst moment of the run, as a part of its
events. A site in the eight rows or columns along a border with another tile needs an edge for its events,
and its attempts are abandoned if that is held, so on small tiles the rates are uneven.
"""
import argparse
import csv
import sys
from pathlib import Path

from ..base.errors import LabError
from ..base.files import shown_name, write_whole
from ..chain.folder import Folder
from ..chain.rates import rates_of
from ..measure.rates import Rates, site_rows, tile_rows
from ..pictures.heat import heat_map
from .words import take_words_anywhere


def add_arguments(parser: argparse.ArgumentParser) -> None:
    """The words of the verb."""
    parser.usage = "./lab rates [-h] [--by {site,tile}] [--svg MAP.svg] (WORLD REPORT [FILE..] | DIR)"
    parser.add_argument("words", metavar="WORLD REPORT", nargs="+", type=Path,
                        help="a world and the report of its run, packed by gzip or not; or DIR, the folder of a chain that "
                             "keeps reports. The element files may be named too, and change nothing")
    parser.add_argument("--by", choices=("site", "tile"), default="site", help="what a row is of (default site)")
    parser.add_argument("--svg", metavar="MAP.svg", type=Path, help="write a heat map too, as SVG")
    take_words_anywhere(parser)


def run(arguments: argparse.Namespace) -> int:
    """Writes the rates to standard output."""
    if arguments.svg is not None and arguments.svg.suffix != ".svg":
        raise LabError(f"--svg {arguments.svg}: it takes the file of the map, whose name has to end with .svg")
    world, *reports = arguments.words
    if world.is_dir():
        rates = rates_of(Folder(world))
    elif reports:
        rates = Rates.of(world, reports[0])
    else:
        raise LabError("rates take WORLD REPORT, or the folder DIR of a chain")
    if arguments.svg is not None:
        panels = {"events": rates.events}
        if any(rates.abandoned):
            panels["abandoned attempts"] = rates.abandoned
        write_whole(arguments.svg, heat_map(rates.world, rates.live(), panels, shown_name(world)))
    out = csv.writer(sys.stdout, lineterminator="\n")
    out.writerows(site_rows(rates) if arguments.by == "site" else tile_rows(rates))
    return 0
