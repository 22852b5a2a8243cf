"""What an event of a run did; or the events that touched a site, or one atom's way, as CSV.

For event K of the journal (counted from 1) it shows the window before and after, the members of the atoms that changed,
each function called with the line in which it is declared, each random word, each swap and store, and if the event
failed, why. For this the event is made again in Python, with the code of its element.

--site X Y has a row for each event that changed the atom of that site, or had an atom there as its centre. --atom X Y
follows the atom that is there at the start, or, if K is given, after K events: a row for each event that moved it,
changed it, or ended it. A swap moves an atom. If an event puts another atom over it, it goes on as that one if the type
is the same; else it has moved if the event put exactly one atom of its type at another site; else it has ended.

In place of WORLD, REPORT and the element files you can give the folder of a chain that keeps reports; events are then
numbered over all its legs.

The program makes each event too. If it comes to another window than the lab, the lab says so and ends with status 1.
"""
import argparse
import csv
import sys
import tempfile
from collections.abc import Sequence
from pathlib import Path

from ..base.errors import LabError
from ..base.program import Program
from ..base.progress import ProgressLine
from ..film.recording import Recording
from ..machine.declarations import Declarations
from ..trace.retraced import Retraced
from ..trace.teller import Teller
from ..trace.ways import atom_rows, site_rows
from .verdicts import status_of
from .words import take_words_anywhere


def add_arguments(parser: argparse.ArgumentParser) -> None:
    """The words of the verb."""
    parser.usage = "./lab trace [-h] [--site X Y | --atom X Y] (WORLD REPORT [K] FILE.. | DIR [K])"
    parser.add_argument("words", nargs="+", metavar="WORLD REPORT K FILE..",
                        help="a world, the report of its run (packed by gzip or not), the number of an event and the "
                             "element files; or DIR, the folder of a chain, and the number")
    form = parser.add_mutually_exclusive_group()
    form.add_argument("--site", nargs=2, type=int, metavar=("X", "Y"), help="the events that touched a site")
    form.add_argument("--atom", nargs=2, type=int, metavar=("X", "Y"), help="the way of the atom that is at a site")
    take_words_anywhere(parser)


def run(arguments: argparse.Namespace) -> int:
    """Writes what is asked for to standard output."""
    words, number = numbered(arguments.words)
    place = arguments.site or arguments.atom
    if number is None and place is None:
        raise LabError("which event? a number K has to follow the report, or --site X Y or --atom X Y be given")
    program = Program.find()
    recording = Recording.of(program, words)
    refuse(recording, number, place)
    with tempfile.TemporaryDirectory() as room:
        retraced = Retraced(program, recording, Path(room), ProgressLine())
        if place is None:
            return status_of(lambda: write_event(retraced, number or 0))
        rows = site_rows if arguments.site else atom_rows
        x, y = place
        return status_of(lambda: write_rows(list(rows(retraced, recording.layout, x, y, number or 0))))


def numbered(words: Sequence[str]) -> tuple[list[Path], int | None]:
    """The words without the number of an event, and that number."""
    at = 1 if Path(words[0]).is_dir() else 2
    if len(words) <= at or not (words[at].isascii() and words[at].isdigit()):
        return [Path(word) for word in words], None
    return [Path(word) for word in [*words[:at], *words[at + 1:]]], int(words[at])


def refuse(recording: Recording, number: int | None, place: Sequence[int] | None) -> None:
    """Refuses an event that there isn't, and a site that is outside the plane."""
    events = recording.ends[-1]
    if number is not None and not (place is None) <= number <= events:
        what = f"after {number} events" if place else f"event {number}"
        raise LabError(f"{what}: there are {events} events")
    if place is not None and not (0 <= place[0] < recording.world.columns and 0 <= place[1] < recording.world.rows):
        raise LabError(f"{place[0]} {place[1]}: outside the plane of {recording.world.columns} by {recording.world.rows} sites")


def write_event(retraced: Retraced, number: int) -> None:
    """Writes what an event did, once the program agrees."""
    recording = retraced.recording
    record, made = retraced.event(number)
    teller = Teller(retraced.maker, retraced.codes, recording, Declarations.of(recording.files, recording.layout))
    sys.stdout.write("".join(f"{line}\n" for line in teller.lines(number, record, made)))


def write_rows(rows: Sequence[Sequence[object]]) -> None:
    """Writes rows as CSV."""
    csv.writer(sys.stdout, lineterminator="\n").writerows(rows)
