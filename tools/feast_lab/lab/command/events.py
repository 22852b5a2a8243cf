"""The events of a report, or its abandoned attempts, as CSV.

A row is an event, in the order of the journal: its number from 1 on, its stamp, its tile, which attempt of the tile it
is, its site, and its seed as 16 hexadecimal digits. With --abandoned a row is an attempt that was given up: its tile,
its number, its site, the edge that was held, and the tile and the attempt that held it.
"""
import argparse
import sys
from pathlib import Path

from ..formats.report import Report

EVENT = "event,stamp,tile,attempt,x,y,seed"
ABANDONED = "tile,attempt,x,y,edge,holder,holder_attempt"


def add_arguments(parser: argparse.ArgumentParser) -> None:
    """The words of the verb."""
    parser.add_argument("--abandoned", action="store_true", help="write the abandoned attempts, and not the events")
    parser.add_argument("report", metavar="REPORT", type=Path, help="a report, packed by gzip or not")


def run(arguments: argparse.Namespace) -> int:
    """Writes the rows to standard output."""
    report = Report.read(arguments.report)
    if arguments.abandoned:
        head, rows = ABANDONED, [line.replace(" ", ",") for line in report.abandoned.lines]
    else:
        head, rows = EVENT, [f"{number},{line.replace(' ', ',')}" for number, line in enumerate(report.journal.lines, 1)]
    sys.stdout.write("\n".join([head, *rows, ""]))
    return 0
