#!/usr/bin/env python3
"""Compares means over many runs with those of the model on other random numbers: means.py PROGRAM.

The model here draws its attempts and its events' numbers from Python's generator, so it shares no
stream with the program. What the two have in common is what the elements do. Each line has the
quantity, both means with their standard errors, and how many standard errors they are apart.
"""
import argparse
import pathlib
import random
import re
import statistics
import sys
import tempfile
from collections.abc import Callable
from dataclasses import dataclass

from compare import EXAMPLES, Example
from elements import horde
from laws import plane_of
from plane import Attempt, Plane, World, read_world
from program import written
from window import act


@dataclass(frozen=True)
class Quantity:
    """What is measured at the end of runs of so many attempts."""

    name: str
    example: Example
    attempts: int
    measure: Callable[[Plane], float]


def number_of(kind: str) -> Callable[[Plane], float]:
    """The measure that counts the atoms of a type."""
    return lambda plane: sum(atom.kind == kind for _, _, atom in plane.sites())


QUANTITIES = [
    Quantity("regulator: resources", Example("regulator"), 40000, number_of("Resource")),
    Quantity("forkbomb: bombs", Example("forkbomb"), 8000, number_of("ForkBomb")),
    Quantity("wator: fish", Example("wator"), 20000, number_of("Fish")),
    Quantity("wator: sharks", Example("wator"), 40000, number_of("Shark")),
    Quantity("horde: mean error", Example("horde", ("regulator",)), 100000, lambda plane: horde.tally(plane)[1]),
]


def by_program(program: pathlib.Path, it: Quantity, seed: int) -> float:
    """The quantity in a run of the program."""
    path = EXAMPLES / f"{it.example.name}.world"
    text = re.sub(r"^seed .*$", f"seed {seed}", path.read_text(), flags=re.M)
    text = re.sub(r"^attempts .*$", f"attempts {it.attempts}", text, flags=re.M)
    with tempfile.NamedTemporaryFile("w", suffix=".world") as file:
        file.write(text)
        file.flush()
        return it.measure(plane_of(read_world(path), written(program, "run", file.name, *it.example.files())))


def by_model(world: World, it: Quantity, seed: int) -> float:
    """The quantity in a run of the model, on Python's random numbers."""
    draws = random.Random(seed)
    plane, elements = world.plane(), it.example.elements()
    for _ in range(it.attempts):
        attempt = Attempt(draws.randrange(plane.width), draws.randrange(plane.height), 0)
        act(plane, attempt, elements, lambda: draws.getrandbits(64))
    return it.measure(plane)


def main() -> int:
    """Compares all quantities; fails if one is more than four standard errors apart."""
    parser = argparse.ArgumentParser(description="Compares means over many runs with those of the model.")
    parser.add_argument("program", type=lambda word: pathlib.Path(word).resolve())
    parser.add_argument("-n", type=int, default=20, metavar="RUNS", help="how many runs of each (20)")
    options = parser.parse_args()
    failed = False
    for it in QUANTITIES:
        world = read_world(EXAMPLES / f"{it.example.name}.world")
        ours = [by_program(options.program, it, 1000 * (number + 1)) for number in range(options.n)]
        theirs = [by_model(world, it, number) for number in range(options.n)]
        errors = [statistics.stdev(found) / options.n ** 0.5 for found in (ours, theirs)]
        apart = abs(statistics.mean(ours) - statistics.mean(theirs)) / (errors[0] ** 2 + errors[1] ** 2) ** 0.5
        failed |= apart > 4
        print(f"{it.name} after {it.attempts} attempts: {statistics.mean(ours):.1f} ({errors[0]:.1f}), "
              f"model {statistics.mean(theirs):.1f} ({errors[1]:.1f}), {apart:.1f} apart", flush=True)
    return 1 if failed else 0


if __name__ == "__main__":
    sys.exit(main())
