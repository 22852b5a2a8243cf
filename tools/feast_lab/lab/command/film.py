"""A film of a run, as one file of HTML; or its plane at a moment as SVG, or its counts as CSV.

The page plays without a network: the plane with the borders of its tiles, the numbers of atoms over the
events, where attempts were abandoned, and the members of the atom at any site. Colours and letters of the
elements are those of \\color and \\symbol in the doc comments above them, as in \\color #0072b2 and \\symbol Fe.
--color, or \\color-by in the comment, colours the atoms of an element by the value of a member instead.
--count, --mean, --sum, --min and --max add curves to the page and columns to the CSV.

In place of WORLD, REPORT and the element files you can give the folder of a chain. If the chain keeps no
reports, the plane is known only at the ends of its legs, so these are the frames.

With --failures each event is made again in Python, which takes longer: the page then has a red cross at each site
where events failed, and the CSV a column `failed`. If the program makes an event otherwise than the lab, the status is 1.
"""
import argparse
import sys
import tempfile
from pathlib import Path

from ..base.errors import LabError
from ..base.files import write_whole
from ..base.program import Program
from ..base.progress import ProgressLine
from ..film.making import FRAMES, MOST_FRAMES, Filming, WantedFilm, refuse_frames
from ..film.recording import Recording
from .options import add_measure_options
from .verdicts import status_of
from .words import take_words_anywhere

PAGES = (".html", ".htm", ".xhtml")
USAGE = """./lab film [-h] [--frames F] [--failures] [--color Element.member] [MEASURE..]
       (-o FILE.html [--table FILE.csv] | --svg K | --svg-movie SECONDS | --csv) (WORLD REPORT FILE.. | DIR)"""


def add_arguments(parser: argparse.ArgumentParser) -> None:
    """The words of the verb."""
    parser.usage = USAGE
    parser.add_argument("words", nargs="+", type=Path, metavar="WORLD REPORT FILE..",
                        help="a world, the report of its run (packed by gzip or not) and the element files; "
                             "or DIR, the folder of a chain")
    parser.add_argument("--frames", type=int, default=FRAMES, metavar="F",
                        help=f"how many frames follow the first, evenly spaced over the events (default {FRAMES}, at most {MOST_FRAMES:,})")
    parser.add_argument("-o", "--output", type=Path, metavar="FILE",
                        help="the file to write; without it SVG and CSV go to standard output")
    parser.add_argument("--table", type=Path, metavar="FILE.csv",
                        help="write the numbers of atoms of each frame beside the film, from the same replay")
    form = parser.add_mutually_exclusive_group()
    form.add_argument("--svg", type=int, metavar="K", help="write the plane after K events, as SVG")
    form.add_argument("--svg-movie", type=float, metavar="SECONDS", help="write the film as one SVG that moves by itself")
    form.add_argument("--csv", action="store_true", help="write the numbers of atoms of each frame, as CSV")
    parser.add_argument("--color", metavar="Element.member", action="append", default=[],
                        help="colour the atoms of an element by the value of a member; may be given for several elements")
    add_measure_options(parser)
    parser.add_argument("--failures", action="store_true", help="find the events that failed, and show them")
    take_words_anywhere(parser)


def run(arguments: argparse.Namespace) -> int:
    """Writes what is asked for."""
    refuse_frames(f"--frames {arguments.frames}", arguments.frames)
    if arguments.svg_movie is not None and not 0.1 <= arguments.svg_movie <= 3600:
        raise LabError(f"--svg-movie {arguments.svg_movie:g}: a film takes from 0.1 to 3600 seconds")
    if arguments.output is None and arguments.svg is None and arguments.svg_movie is None and not arguments.csv:
        raise LabError("a film has to be written to a file: -o FILE.html")
    refuse_outputs(arguments)
    refuse_useless(arguments)
    return status_of(lambda: write(arguments))


def write(arguments: argparse.Namespace) -> None:
    """Makes what is asked for, and writes it."""
    program = Program.find()
    recording = Recording.of(program, arguments.words)
    wanted = WantedFilm(arguments.frames, arguments.color, arguments.measures, arguments.failures)
    with tempfile.TemporaryDirectory() as room:
        text = made(Filming.of(program, recording, wanted, Path(room), ProgressLine()), arguments)
    if arguments.output is None:
        sys.stdout.write(text)
    else:
        write_whole(arguments.output, text)


def made(filming: Filming, arguments: argparse.Namespace) -> str:
    """What is asked for; a table that is to be beside a film is written."""
    if arguments.svg is not None:
        return filming.figure(arguments.svg)
    if arguments.svg_movie is not None:
        return filming.movie(arguments.svg_movie)
    if arguments.csv:
        return filming.counts()
    if arguments.table is None:
        return filming.page()
    table = filming.table()
    text = filming.page(table)
    write_whole(arguments.table, table.text())
    return text


def refuse_useless(arguments: argparse.Namespace) -> None:
    """Refuses options that what is asked for has no place for."""
    if arguments.svg is not None or arguments.svg_movie is not None:
        form = "--svg" if arguments.svg is not None else "--svg-movie"
        if arguments.failures:
            raise LabError(f"--failures goes with a film or with --csv, not with {form}")
        if arguments.measures:
            raise LabError(f"{arguments.measures[0]}: {form} has no place for a measure; a film has curves of them, and --csv columns")
    if arguments.color and arguments.svg_movie is not None:
        raise LabError("--color: --svg-movie colours atoms by their elements alone; a film and --svg colour them by a member")
    if arguments.color and arguments.csv:
        raise LabError("--color: --csv has no colours; --mean Element.member and the like add columns of a member to it")


def refuse_outputs(arguments: argparse.Namespace) -> None:
    """Refuses files that can't be written, or whose names end as those of another form."""
    for path in (arguments.output, arguments.table):
        if path is not None and not path.absolute().parent.is_dir():
            raise LabError(f"{path}: there is no such folder to write to")
    is_page = arguments.svg is None and arguments.svg_movie is None and not arguments.csv
    if is_page and arguments.output.suffix not in PAGES:
        raise LabError(f"{arguments.output}: a film is a page for a browser, so its name has to end with .html; "
                       "--svg K makes a picture, and --csv a table")
    if arguments.table is not None and not is_page:
        raise LabError("--table belongs to a film; --csv writes the table alone")
