"""What is wrong with element files, and what to write instead.

The program checks the files. If it refuses one, its line is shown with the line of the file, a caret below the
place, what was met there, and what to write instead; the status is then 2. If it accepts them, warnings follow:
what is allowed but hardly meant, such as a member that is used after the atom has moved. `./lab explain E50`
says more of a code, and `./lab explain moved-member` of a warning.

A world may come before the element files, and a report of its run behind the world. They are then checked too, with
the elements. A code file is checked by itself. Of these there are no warnings.
"""
import argparse
import stat
import sys
from collections.abc import Sequence
from pathlib import Path

from ..base.errors import LabError
from ..base.files import cause, read_byte_text
from ..base.program import Program, Refusal
from ..check.fault import RefusalLine
from ..check.given import Given
from ..check.shown import refusal_lines, warned_lines
from ..lint.every import warnings
from ..ulam.tokens import Source

STRICT = 1
REFUSED = 2
DEEPEST = 10_000  # calls of Python's: texts nest 64 deep, and what is followed through functions 16 calls


def add_arguments(parser: argparse.ArgumentParser) -> None:
    """The words of the verb."""
    parser.usage = "./lab check [-h] [--strict] ([WORLD [REPORT]] FILE.. | CODE)"
    parser.add_argument("--strict", action="store_true", help=f"end with status {STRICT} if there are warnings")
    parser.add_argument("files", metavar="FILE", nargs="+",
                        help="the element files; a world may come before them (a file that begins with `feast`, or "
                             "whose name ends with .world), and a report behind it (a file that begins with `feast 1` "
                             "and `atoms`); or a code file, as `pack` writes it")
    parser.set_defaults(takes_pipes=False)  # a refusal names the file, and shows its line


def run(arguments: argparse.Namespace) -> int:
    """Writes what is wrong to standard output."""
    sys.setrecursionlimit(DEEPEST)
    given = Given.of([source_of(name) for name in arguments.files])
    try:
        given.call(Program.find())
    except Refusal as refusal:
        refused = RefusalLine.of(str(refusal))
        if refused is None:
            raise
        write(refusal_lines(refused, given))
        return REFUSED
    found = warnings(given.files)
    for warned in found:
        write([*warned_lines(warned), ""])
    write([f"accepted, with {len(found)} warning{'' if len(found) == 1 else 's'}" if found else "accepted"])
    return STRICT if found and arguments.strict else 0


def source_of(name: str) -> Source:
    """A file, which has to be one that can be read twice."""
    path = Path(name)
    try:
        is_plain = stat.S_ISREG(path.stat().st_mode)
    except OSError as error:
        raise LabError(f"{name}: can't be read: {cause(error)}") from error
    if not is_plain:
        raise LabError(f"{name}: no plain file; it would have to be read twice")
    return Source(name, read_byte_text(path))


def write(lines: Sequence[str]) -> None:
    """Writes lines to standard output."""
    sys.stdout.write("".join(line + "\n" for line in lines))
