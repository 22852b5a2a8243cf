"""The events of a run that failed, by element and cause, as CSV.

An event that fails leaves its window as it was, but for its own atom, which is gone. No report says so. This verb makes
each event of a report again, in Python, and has a row for each element and cause with the number of such events and the
first of them: its number in the journal (from 1), its site, the function in which it failed, the line in which that is
declared, and the instruction, with its place in what `feast code` writes. With --list it has a row for each failed event.

In place of WORLD, REPORT and the element files you can give the folder of a chain that keeps reports; events are then
numbered over all its legs. With --course the course of the chain is written, with a column `failed`: how many events of
each leg did.

The program makes each event too, from the window that it began with. If it comes to another window than the lab, or to
other atoms at the end, the lab says so and ends with status 1.
"""
import argparse
import csv
import sys
import tempfile
from collections.abc import Sequence
from pathlib import Path

from ..base.errors import LabError
from ..base.program import Program
from ..base.progress import ProgressLine
from ..chain.course import COURSE
from ..film.recording import Recording
from ..machine.declarations import Declarations
from ..trace.failures import COLUMNS, LIST_COLUMNS, counted, course_rows, rows
from ..trace.retraced import Retraced
from .verdicts import status_of
from .words import take_words_anywhere


def add_arguments(parser: argparse.ArgumentParser) -> None:
    """The words of the verb."""
    parser.usage = "./lab failures [-h] [--list | --course] (WORLD REPORT FILE.. | DIR)"
    parser.add_argument("words", nargs="+", type=Path, metavar="WORLD REPORT FILE..",
                        help="a world, the report of its run (packed by gzip or not) and the element files; "
                             "or DIR, the folder of a chain")
    form = parser.add_mutually_exclusive_group()
    form.add_argument("--list", action="store_true", help="a row for each failed event")
    form.add_argument("--course", action="store_true", help="the course of a chain, with a column of failed events")
    take_words_anywhere(parser)


def run(arguments: argparse.Namespace) -> int:
    """Writes the failed events to standard output."""
    if arguments.course and not arguments.words[0].is_dir():
        raise LabError(f"{arguments.words[0]}: --course takes the folder of a chain")
    return status_of(lambda: write(arguments.words, arguments.list, arguments.course))


def write(words: Sequence[Path], is_list: bool, is_course: bool) -> None:
    """Writes the rows, once all events are made."""
    program = Program.find()
    recording = Recording.of(program, words)
    with tempfile.TemporaryDirectory() as room:
        retraced = Retraced(program, recording, Path(room), ProgressLine())
        failed = list(rows(retraced, Declarations.of(recording.files, recording.layout)))
    out = csv.writer(sys.stdout, lineterminator="\n")
    if is_course:
        out.writerows(course_rows(words[0] / COURSE, recording.ends, [int(str(row[0])) for row in failed]))
    else:
        out.writerow(LIST_COLUMNS if is_list else COLUMNS)
        out.writerows(failed if is_list else counted(failed))
