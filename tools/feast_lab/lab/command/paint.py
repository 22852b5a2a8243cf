"""A world from a drawing in letters, or from a pattern in Golly's RLE.

In a drawing each line is a row of the plane, and each letter a site; `.` and a space are empty. A map whose
first line, but for empty ones and those that begin with `#`, is `x = 3, y = 3 ..` is read as RLE; its symbols are `o` (or
`A`, `B` .. of a pattern with several states), and `b` and `.` are empty.

A key S=Element[:member=value,..] says what a symbol stands for: an atom of that element, whose members have
these values, and all others 0. A value is a number (`12`, `-3`, `0x1f`, `0b101`), `true` or `false`, within the
range of the member; members of parts have dotted names (`part.count=3`), and items of arrays their number
(`list[2]=1`). Each symbol of the map needs a key.

The world goes to standard output. With --seed and --attempts each tile draws so many attempts; without
them the world has none, and you can add lines for them after `size`. With --order the tiles of a stepped run
take turns; without it `step` makes all attempts of tile 0, then all of tile 1, and so on.
"""
import argparse
import sys
from pathlib import Path

from ..base.errors import LabError
from ..base.program import Program
from ..formats.layout import Layout
from ..worlds.drawing import Drawing
from ..worlds.paint import keys_of, painted
from .options import add_frame, wanted_frame


def add_arguments(parser: argparse.ArgumentParser) -> None:
    """The words of the verb."""
    parser.add_argument("map", metavar="MAP", type=Path, help="the drawing or pattern, packed by gzip or not; `-` is standard input")
    parser.add_argument("--key", metavar="S=Element[:member=value,..]", dest="keys", action="append", required=True,
                        help="what a symbol stands for; one for each symbol")
    add_frame(parser)
    parser.add_argument("--place", metavar=("X", "Y"), nargs=2, type=int, default=[0, 0],
                        help="the site of the map's first symbol")
    parser.add_argument("--seed", metavar="N", type=int, help="the seed from which attempts are drawn")
    parser.add_argument("files", metavar="FILE", nargs="+", help="the element files")


def run(arguments: argparse.Namespace) -> int:
    """Writes the world to standard output."""
    layout = Layout.of(Program.find(), arguments.files)
    if (arguments.seed is None) != (arguments.attempts is None):
        raise LabError("--seed and --attempts belong together")
    world = wanted_frame(arguments).world()
    drawing = Drawing.read(arguments.map)
    keys = keys_of(arguments.keys, layout, drawing)
    left, top = arguments.place
    world.atoms = painted(world, drawing, keys, left, top)
    for warning in drawing.warnings([(atom.x - left, atom.y - top) for atom in world.atoms]):
        print(f"lab: warning: {drawing.name}: {warning}", file=sys.stderr)
    sys.stdout.write(world.text())
    return 0
