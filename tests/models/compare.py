#!/usr/bin/env python3
"""Compares the program with the model on the examples: compare.py PROGRAM [EXAMPLE..].

The model of this folder shares nothing with the program but the rules: the elements are written
again in Python. Of each example the report of the run of one tile and that of the stepped run are
compared byte for byte with the model's, and the events of a run on threads are made again by the
model, in the order of the journal, and have to lead to the report's atoms.
"""
import argparse
import importlib
import pathlib
import sys
from collections.abc import Iterator
from dataclasses import dataclass

sys.path.insert(1, str(pathlib.Path(__file__).resolve().parent.parent))
import machine  # noqa: E402
from plane import read_world  # noqa: E402
from program import written  # noqa: E402
from window import Elements, act  # noqa: E402

EXAMPLES = pathlib.Path(__file__).resolve().parent.parent.parent / "examples"


@dataclass(frozen=True)
class Example:
    """An example: its name, the element files beside its own, and the further modules of elements."""

    name: str
    others: tuple[str, ...] = ()

    def files(self) -> list[str]:
        """The element files."""
        return [str(EXAMPLES / f"{name}.ulam") for name in (self.name, *self.others)]

    def elements(self) -> Elements:
        """The elements of all files, in Python."""
        modules = [importlib.import_module(f"elements.{name}") for name in (self.name, *self.others)]
        return {kind: behave for module in modules for kind, behave in module.ELEMENTS.items()}


ALONE = ("diffusion", "regulator", "sorter", "fence", "seasons", "life", "forkbomb", "wator", "membrane", "gradient", "wire",
         "ants")
ALL = [*(Example(name) for name in ALONE), Example("swapline", ("stone",)), Example("horde", ("regulator",))]


def is_replayed(world: pathlib.Path, text: str, elements: Elements) -> bool:
    """Whether the events of a report lead to its atoms."""
    plane = read_world(world).plane()
    for attempt in machine.journal_of(text):
        act(plane, attempt, elements)
    return plane.text() == machine.atoms_of(text)


def faults(program: pathlib.Path, example: Example) -> Iterator[str]:
    """In what the program and the model differ."""
    several = EXAMPLES / f"{example.name}-tiles.world"
    elements = example.elements()
    for one in sorted({*EXAMPLES.glob(f"{example.name}*.world")} - {several}):
        if written(program, "run", str(one), *example.files()) != machine.of_one_tile(read_world(one), elements).text():
            yield one.name
    if written(program, "step", str(several), *example.files()) != machine.stepped(read_world(several), elements).text():
        yield "stepped"
    if not is_replayed(several, written(program, "run", str(several), *example.files()), elements):
        yield "threads"


def main() -> int:
    """Compares the examples that are named, or all."""
    parser = argparse.ArgumentParser(description="Compares the program with the model on the examples.")
    parser.add_argument("program", type=lambda word: pathlib.Path(word).resolve())
    parser.add_argument("examples", nargs="*", metavar="EXAMPLE", help="all, if none is named")
    options = parser.parse_args()
    failed = 0
    for example in ALL:
        if not options.examples or example.name in options.examples:
            found = list(faults(options.program, example))
            failed += bool(found)
            print(f"{example.name}: {'differs: ' + ', '.join(found) if found else 'the same'}", flush=True)
    return 1 if failed else 0


if __name__ == "__main__":
    sys.exit(main())
