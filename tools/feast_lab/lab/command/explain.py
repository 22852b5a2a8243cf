"""The rule of a refusal or a warning, with examples wrong and right.

WHAT is a code such as E50, or the name of a warning such as moved-member; without it all are listed. The rules are
those of docs/errors.md, docs/errors-of-elements.md, docs/ulam.md and docs/check.md.
"""
import argparse
import sys
from collections.abc import Iterable

from ..check.explained import lines_of, list_lines


def add_arguments(parser: argparse.ArgumentParser) -> None:
    """The words of the verb."""
    parser.add_argument("what", metavar="WHAT", nargs="?", help="a code, or the name of a warning")


def run(arguments: argparse.Namespace) -> int:
    """Writes the rule to standard output."""
    if arguments.what is None:
        lines: Iterable[str] = list_lines()
    else:
        lines = lines_of(arguments.what)
    sys.stdout.write("".join(line + "\n" for line in lines))
    return 0
