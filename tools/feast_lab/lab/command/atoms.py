"""The atoms of a report with the values of their members, as CSV.

In place of a report you can give what `replay` or `rewind` writes, or the folder of a chain, for the atoms at its
end; element files are not needed then.
A row has the site, the element, and a column for each member of any element of the files, by its
dotted name (`part.count`, `list[2]`); if an element lacks a member, its field is empty. `Unary` is
shown as its number of ones, `Bits` as the number that the bits make, and `true` as 1.
"""
import argparse
import csv
import sys
from pathlib import Path

from ..base.errors import LabError
from ..base.program import Program
from ..chain.folder import Folder
from ..formats.layout import Layout
from ..formats.outcome import atom_lines
from ..formats.report import placed, read_atoms


def add_arguments(parser: argparse.ArgumentParser) -> None:
    """The words of the verb."""
    parser.add_argument("report", metavar="REPORT", type=Path,
                        help="a report, packed by gzip or not, or what replay and rewind write, or the folder of a chain")
    parser.add_argument("files", metavar="FILE", nargs="*", help="the element files")


def run(arguments: argparse.Namespace) -> int:
    """Writes the atoms to standard output."""
    program, report, files = Program.find(), arguments.report, arguments.files
    folder = Folder(report) if report.is_dir() else None
    if folder is not None:
        files = files or (folder.begun() and folder.files)
    if not files:
        raise LabError("atoms takes REPORT FILE.., or the folder DIR of a chain")
    layout = Layout.of(program, files)
    atoms = read_atoms(report) if folder is None else [placed(line) for line in atom_lines(folder.atoms(folder.done(), folder.begun()))]
    columns = list(dict.fromkeys(leaf.name for element in layout.elements for leaf in layout.numbers(element)))
    for atom in atoms:
        if atom.name not in layout.leaves:
            raise LabError(f"{report}: it has atoms of {atom.name}, which no file has as an element")
    rows = [[atom.x, atom.y, atom.name, *cells(layout, columns, atom.name, atom.state)] for atom in atoms]
    out = csv.writer(sys.stdout, lineterminator="\n")
    out.writerow(["x", "y", "element", *columns])
    out.writerows(rows)
    return 0


def cells(layout: Layout, columns: list[str], element: str, state: int) -> list[str]:
    """The values of an atom's members, column by column."""
    values = dict(layout.decode(element, state))
    return [str(values.get(column, "")) for column in columns]
