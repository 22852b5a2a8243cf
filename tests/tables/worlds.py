"""Worlds, each one fault away from a good one, and the atoms that worlds begin with."""
from __future__ import annotations

from typing import Iterator

from rows import Row, refused, written
from texts import report, world

WALKER = "element Walker { Void behave() { } }"
STONE = "element Stone { Void behave() { } }"


def two_tiles(*more: str, version: int = 2) -> str:
    """A world of two tiles of 16 by 16 sites."""
    return world(*more, version=version, tiles="2 1", size="16 16")


# Worlds with the line and the code of their first fault.
FAULTS: list[tuple[str, int, str]] = [
    ("", 1, "E70"),
    ("# feast 1\n\n", 3, "E70"),
    ("feast 3\n", 1, "E70"),
    ("feast 1", 2, "E76"),
    ("feast 1\ntiles 1 1\n", 3, "E76"),
    (world("seed 7"), 5, "E76"),
    (world(size="7 8"), 3, "E72"),
    (world(tiles="01 1"), 2, "E71"),
    (world(size="7 8 8"), 3, "E71"),
    ("feast 1\r\ntiles 1 1\r", 2, "E71"),
    (world("try 0 8 4"), 4, "E72"),
    (world("seed 1", "attempts 1000001"), 5, "E75"),
    (world("try 0 3 4", "atom 3 4 Walker 800000000000000000"), 5, "E72"),
    (world("try 0 3 4", "atom 3 4 Nobody"), 5, "E73"),
    (world("try 0 3 4", "atom 3 4 Walker", "atom 3 4 Walker"), 6, "E74"),
    (two_tiles("off 1", version=1), 4, "E71"),
    (two_tiles("off 0", "off 1"), 5, "E72"),
    (two_tiles("off 1", "try 1 16 4"), 5, "E72"),
    (two_tiles("off 1", "atom 16 4 Walker"), 5, "E72"),
    (two_tiles("off 1", "order 0", "# 1", "order 1"), 7, "E72"),
]

# Worlds without attempts, and their atoms, which are in row order.
ATOMS: list[tuple[str, list[str]]] = [
    (
        world(f"atom 4 3 Walker {10:018x}", "atom 3 3 Walker", "atom 7 2 Walker"),
        ["7 2 Walker", "3 3 Walker", f"4 3 Walker {10:018x}"],
    ),
    (world(), []),
]

# Two files of elements, which are numbered in order, and an atom of each and of a quark that is none.
FIRST = "quark Q { Bool b; } element A { Void behave() { } } element B { Void behave() { } }"
SECOND = "element C { Void behave() { } }"
NUMBERED = "quark Q 1\nmember b Bool 0 1\nelement A 1 0\nelement B 2 0\nelement C 3 0\n"
NAMED: list[tuple[str, bool]] = [("A", True), ("C", True), ("Q", False)]


def files(plane: str) -> dict[str, str]:
    """A world and its elements."""
    return {"w": plane, "a": WALKER, "b": STONE}


def rows() -> Iterator[Row]:
    """The rows."""
    for plane, line, code in FAULTS:
        yield refused("step w a b", files(plane), f"w:{line}:1", code)
    for plane, shown in ATOMS:
        for form in ("step", "run"):
            yield written(f"{form} w a b", files(plane), report(shown, []))
    yield written("check a b", {"a": FIRST, "b": SECOND}, NUMBERED)
    for name, is_element in NAMED:
        named = {"w": world(f"atom 3 4 {name}"), "a": FIRST, "b": SECOND}
        left = report([f"3 4 {name}"], [])
        yield written("step w a b", named, left) if is_element else refused("step w a b", named, "w:4:1", "E73")
