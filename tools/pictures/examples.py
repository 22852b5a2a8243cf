#!/usr/bin/env python3
"""Draws the planes of the examples at the start and at the end of their runs on one tile: examples.py FOLDER.

Each picture, NAME-run.svg, has both planes side by side, as `./lab film --svg` draws them. Where little is left to see
at the end, the second plane is that of an earlier moment. It is called at the top of a clone.
"""
import argparse
import re
import subprocess
import sys
import tempfile
from dataclasses import dataclass
from pathlib import Path

sys.dont_write_bytecode = True

from sheet import svg  # noqa: E402

GAP = 24  # between the two planes


@dataclass(frozen=True)
class Example:
    """An example: the name of its world, its files of elements beside that of its own, options of the film, the name of
    its own file if it is another, and the moment of the second plane if it is not the end."""

    name: str
    others: tuple[str, ...] = ()
    options: tuple[str, ...] = ()
    own: str = ""
    moment: str = ""

    def files(self) -> list[str]:
        """The files of its elements."""
        return [f"examples/{name}.ulam" for name in (self.own or self.name, *self.others)]


EXAMPLES = (
    Example("ants"), Example("diffusion"), Example("fence"), Example("forkbomb", moment="14000"),
    Example("gradient", options=("--color", "Field.distance")),
    Example("horde", ("regulator",)), Example("horde-damaged", ("regulator",), own="horde"),
    Example("life", options=("--color", "Cell.alive")),
    Example("membrane"), Example("regulator"), Example("seasons"), Example("sorter"),
    Example("swapline", ("stone",), moment="5000"),
    Example("wator"), Example("wire", options=("--color", "Wire.phase")),
)


def called(*words: str) -> str:
    """What a command writes."""
    return subprocess.run(words, stdout=subprocess.PIPE, check=True, text=True).stdout


def planes(example: Example) -> list[str]:
    """The drawings of the plane at the start and at the end of a run."""
    world = f"examples/{example.name}.world"
    text = called("./feast", "run", world, *example.files())
    events = re.search(r"(?m)^journal (\d+)$", text)
    assert events is not None
    with tempfile.TemporaryDirectory() as folder:
        report = Path(folder, "report")
        report.write_text(text)
        words = ("./lab", "film", world, str(report))
        return [called(*words, "--svg", moment, *example.options, *example.files()) for moment in ("0", example.moment or events[1])]


def size(drawing: str) -> tuple[float, float]:
    """How wide and how high a drawing is."""
    found = re.search(r'width="([\d.]+)" height="([\d.]+)"', drawing)
    assert found is not None
    return float(found[1]), float(found[2])


def inside(drawing: str, number: int, x: float) -> str:
    """A drawing as a part of another one. What it names by an id gets a name of its own."""
    bare = re.sub(r"<(title|desc)>[^<]*</\1>\n", "", drawing)
    bare = re.sub(r'(id="|url\(#)scale', rf"\g<1>scale{number}", bare)
    return bare.replace("<svg ", f'<svg x="{svg.number(x)}" ', 1).rstrip("\n")


def together(example: Example, drawings: list[str]) -> str:
    """Both drawings side by side."""
    sizes = [size(drawing) for drawing in drawings]
    places = [0.0, sizes[0][0] + GAP]
    parts = [inside(drawing, number, x) for number, (drawing, x) in enumerate(zip(drawings, places), 1)]
    titles = re.findall(r"<title>(.*)</title>", "".join(drawings))
    about = " ".join(re.findall(r"<desc>(.*)</desc>", "".join(drawings)))
    return svg.figure(f"{example.name}: {titles[0]}, and {titles[1]}", about, places[1] + sizes[1][0], max(high for _, high in sizes), parts)


def main() -> int:
    """Writes the pictures."""
    parser = argparse.ArgumentParser(prog="examples.py", description="Draws the planes of the examples at the start and at the end.")
    parser.add_argument("folder", type=Path)
    folder: Path = parser.parse_args().folder
    for example in EXAMPLES:
        (folder / f"{example.name}-run.svg").write_text(together(example, planes(example)))
    return 0


if __name__ == "__main__":
    sys.exit(main())
