"""Code files that differ from a good one by a byte, and their fronts."""
from __future__ import annotations

from typing import Iterator

from packing import Function, code_file, element
from rows import Row, refused, written
from texts import report, world

WORLD = world("try 0 3 4", "atom 3 4 Walker")

# The element that swaps itself with its eastern neighbour, and its code file.
SOURCE = "element Walker { EventWindow ew; Void behave() { ew.swap(0, 4); } }"
WALKER = element("Walker", [Function()], ["PushNum 0", "PushNum 4", "Swap", "ReturnVoid"])
GOOD = code_file(WALKER)

# What an event of it leaves.
MOVED = report(["4 4 Walker"], ["1 0 0 3 4"])

# A place, counted from 1, with another byte there, and the place and the code of the fault: of the first bytes; of the
# elements, too many, one that is missing, and bytes behind none; of the element's name; of its function, its name,
# base, first place, parameters, result and slots; and of the instructions.
CHANGES: list[tuple[int, int, int, str]] = [
    (1, 102, 1, "E61"),
    (8, 1, 1, "E61"),
    (9, 2, 9, "E62"),
    (10, 2, 69, "E62"),
    (10, 0, 11, "E62"),
    (13, 1, 13, "E62"),
    (14, 0, 14, "E62"),
    (15, 119, 15, "E62"),
    (20, 45, 20, "E62"),
    (24, 0, 24, "E62"),
    (29, 66, 29, "E62"),
    (35, 72, 35, "E62"),
    (39, 1, 11, "E63"),
    (40, 9, 40, "E62"),
    (41, 3, 41, "E62"),
    (41, 1, 11, "E63"),
    (42, 73, 42, "E62"),
    (46, 0, 46, "E62"),
    (46, 3, 68, "E62"),
    (46, 5, 69, "E62"),
    (48, 1, 48, "E62"),
    (48, 255, 49, "E62"),
    (67, 65, 67, "E62"),
    (67, 255, 67, "E62"),
    (68, 12, 11, "E63"),
]


def faulty(code: bytes, place: int, fault: str) -> Row:
    """A code file that is refused."""
    return refused("steppack w c", {"w": WORLD, "c": code}, f"c:1:{place}", fault)


def rows() -> Iterator[Row]:
    """The rows."""
    yield Row("pack a", {"a": SOURCE}, 0, GOOD)
    for words in ("runpack w c", "steppack w c"):
        yield written(words, {"w": WORLD, "c": GOOD}, MOVED)
    for place, byte, fault_place, fault in CHANGES:
        yield faulty(GOOD[: place - 1] + bytes([byte]) + GOOD[place:], fault_place, fault)
    for length in range(len(GOOD)):
        yield faulty(GOOD[:length], *((1, "E61") if length < 8 else (length + 1, "E62")))
    # a name that is used twice, and a count of functions with none behind it
    yield faulty(code_file(WALKER, WALKER), 69, "E64")
    yield faulty(GOOD[:20] + bytes([0, 1, 0, 0]), 25, "E62")
