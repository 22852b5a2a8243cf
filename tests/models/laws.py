#!/usr/bin/env python3
"""Tries what the examples promise on runs of the program: laws.py PROGRAM [-n RUNS].

Life comes to what Conway's rules alone give; the line moves each stone by one column; the membrane
parts grains from dust, after every hundredth event too; the antidote leaves an empty plane. Each is
tried on one tile, stepped, and so many times on threads; so is that each site of a field knows its distance, and that
after every hundredth event each pulse of a wire was heard or is on its way, and no bite of the ants' food is lost. A
threaded run whose tiles have made too
few events is not over; what holds before the end has to hold of it too.
"""
import argparse
import pathlib
import sys
from collections.abc import Callable, Iterator

import machine
from compare import EXAMPLES, Example
from elements import ants, gradient, life, membrane, swapline, wire
from plane import Atom, Plane, World, read_world
from program import written
from window import Elements, act

Law = Callable[[World, str, Elements], str]


def plane_of(world: World, text: str) -> Plane:
    """The plane at the end of a report."""
    world = World(world.tiles, world.size)
    for line in machine.atoms_of(text).splitlines()[1:]:
        x, y, kind, state = line.split()
        world.atoms[int(x), int(y)] = Atom(kind, int(state, 16))
    return world.plane()


def life_law(world: World, text: str, _elements: Elements) -> str:
    """Each cell is that of plain Life."""
    plane = plane_of(world, text)
    if not life.is_life(world, plane):
        return "wrong"
    return "over" if life.is_over(plane) else "not over"


def line_law(world: World, text: str, _elements: Elements) -> str:
    """The line has gone through, and each stone is one column further east."""
    plane = plane_of(world, text)
    if swapline.is_swept(world, plane):
        return "over"
    return "not over" if any(x > 0 for x, _, atom in plane.sites() if atom.kind == "Line") else "wrong"


def membrane_law(world: World, text: str, elements: Elements) -> str:
    """No grain comes out, and no dust comes in."""
    plane = world.plane()
    for number, attempt in enumerate(machine.journal_of(text)):
        act(plane, attempt, elements)
        if number % 100 == 0 and not membrane.is_kept(plane):
            return "wrong"
    return "over" if membrane.is_kept(plane) else "wrong"


def bomb_law(world: World, text: str, _elements: Elements) -> str:
    """Nothing is left."""
    return "not over" if list(plane_of(world, text).sites()) else "over"


def field_law(world: World, text: str, _elements: Elements) -> str:
    """Each site knows its distance from the source."""
    return "over" if gradient.is_measured(plane_of(world, text)) else "not over"


def wire_law(world: World, text: str, elements: Elements) -> str:
    """No pulse is lost, and none is doubled."""
    plane = world.plane()
    for number, attempt in enumerate(machine.journal_of(text)):
        act(plane, attempt, elements)
        if number % 100 == 0 and not wire.is_counted(plane):
            return "wrong"
    return "over" if wire.is_counted(plane) else "wrong"


def ants_law(world: World, text: str, elements: Elements) -> str:
    """There are as many bites as at the start, and the nest has some of them at the end."""
    plane = world.plane()
    bites = ants.bites(plane)
    for number, attempt in enumerate(machine.journal_of(text)):
        act(plane, attempt, elements)
        if number % 100 == 0 and ants.bites(plane) != bites:
            return "wrong"
    is_fed = any(atom.kind == "Nest" and atom.get(*ants.STORED) for _, _, atom in plane.sites())
    return "over" if is_fed else "not over"


LAWS: list[tuple[Example, Law]] = [
    (Example("life"), life_law),
    (Example("swapline", ("stone",)), line_law),
    (Example("membrane"), membrane_law),
    (Example("forkbomb"), bomb_law),
    (Example("gradient"), field_law),
    (Example("wire"), wire_law),
    (Example("ants"), ants_law),
]


def answers(program: pathlib.Path, example: Example, law: Law, runs: int) -> Iterator[tuple[str, str]]:
    """What the law says of each kind of run."""
    calls = [("one tile", "run", ""), ("stepped", "step", "-tiles"), *[("threads", "run", "-tiles")] * runs]
    for kind, word, suffix in calls:
        path = EXAMPLES / f"{example.name}{suffix}.world"
        text = written(program, word, str(path), *example.files())
        yield kind, law(read_world(path), text, example.elements())


def main() -> int:
    """Tries all laws."""
    parser = argparse.ArgumentParser(description="Tries what the examples promise on runs of the program.")
    parser.add_argument("program", type=lambda word: pathlib.Path(word).resolve())
    parser.add_argument("-n", type=int, default=1, metavar="RUNS", help="how many runs on threads (1)")
    options = parser.parse_args()
    failed = False
    for example, law in LAWS:
        found = list(answers(options.program, example, law, options.n))
        failed |= any(answer == "wrong" or answer == "not over" and kind != "threads" for kind, answer in found)
        print(f"{example.name}: " + ", ".join(f"{kind} {answer}" for kind, answer in found), flush=True)
    return 1 if failed else 0


if __name__ == "__main__":
    sys.exit(main())
