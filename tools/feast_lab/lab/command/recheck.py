"""Judges a report by a second reader, which shares no code with the program (docs/recheck.md).

It reads the element files and the world anew, by the pages of docs/, makes each event of the report by the
meaning of its element's source, and writes what `feast audit` writes: `yes`, or the first thing that is wrong. With
--step it writes the stepped report of the world itself. WORLD may be a chain (a file that begins with `chain 1`), whose
whole and short reports are judged leg by leg. Refusals are those of the program, with the same statuses. It runs
under PyPy (pypy3), where that is there.
"""
import argparse
import shutil
import subprocess
import sys

from ..base.children import words_of
from ..base.errors import LabError


def add_arguments(parser: argparse.ArgumentParser) -> None:
    """The words of the verb."""
    parser.add_argument("--step", action="store_true", help="write the stepped report of WORLD; there is no REPORT then")
    parser.add_argument("files", metavar="WORLD [REPORT] FILE", nargs="+",
                        help="the world or the chain, the report, and the element files")


def run(arguments: argparse.Namespace) -> int:
    """Hands the words on to the second reader, in a process of its own; gives its status."""
    least = 2 if arguments.step else 3
    if len(arguments.files) < least:
        raise LabError("recheck: it needs a world, a report and element files; with --step a world and element files")
    words = ["--call", "step" if arguments.step else "audit", *arguments.files]
    sys.stdout.flush()
    call = words_of("recheck.main", "main", shutil.which("pypy3") or sys.executable)
    return subprocess.run([*call, *words], check=False).returncode
