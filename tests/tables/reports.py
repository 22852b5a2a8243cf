"""Reports that are read again, each one fault away from a good one, and reports as they are written."""
from __future__ import annotations

from typing import Iterator, Sequence

from rows import Row, refused, written
from texts import atoms, lines, report, world

# Two tiles, each with an attempt at their border that is an event, and the atom that both leave.
WORLD = world("try 0 15 4", "try 1 16 4", "atom 17 4 Walker", tiles="2 1", size="16 16")
FIRST = f"1 0 0 15 4 {0:016x}"
SECOND = f"2 1 0 16 4 {0:016x}"
WALKER = "17 4 Walker"

# An element that leaves all as it is.
STILL = "element Walker { Void behave() { } }"

# Reports of this world with the line, the code and the number of their first fault.
FAULTS: list[tuple[str, int, str, int]] = [
    (report([WALKER], [SECOND, FIRST]), 6, "E81", 5),
    (report([WALKER], ["1 0 0 16 4", SECOND]), 5, "E82", 0),
    (report([WALKER], [f"1 0 0 15 4 {1:016x}", SECOND]), 5, "E83", 0),
    (atoms(WALKER) + lines("journal 2", FIRST), 6, "E80", 0),
    (atoms() + lines("journal 2", FIRST), 5, "E80", 0),
    (report([], []).rstrip("\n"), 4, "E80", 0),
    (report([], []) + "\n", 5, "E80", 0),
    (report([], [SECOND, FIRST]), 5, "E81", 4),
    (report([], ["0 0 0 15 4"]), 4, "E81", 0),
    (report([], ["1 0 0 16 4"]), 4, "E82", 0),
    (report([], [f"1 0 0 15 4 {1:016x}"]), 4, "E83", 0),
    (report([], ["1 0 1 15 4"]), 4, "E83", 0),
]

# A report of this world in which one attempt was abandoned.
ABANDONED = atoms() + lines("journal 1", FIRST, "abandoned 1", "1 0 16 4 0 0 0")

# Worlds of which each attempt is an event, with their atoms at the end and their events. The last has 200 attempts at
# an empty site, and its report is put in two pieces.
WRITTEN: list[tuple[str, list[str], list[str]]] = [
    (WORLD, [WALKER], [FIRST, SECOND]),
    (
        world("off 1", "try 0 15 4", "atom 15 4 Walker", version=2, tiles="2 1", size="16 16"),
        ["15 4 Walker"],
        [FIRST],
    ),
    (
        world(f"atom 4 3 Walker {10:018x}", "atom 3 3 Walker"),
        ["3 3 Walker", f"4 3 Walker {10:018x}"],
        [],
    ),
    (world(*["try 0 0 0"] * 200), [], [f"{it + 1} 0 {it} 0 0" for it in range(200)]),
]


def files(plane: str, text: str) -> dict[str, str]:
    """A world, its element and a report."""
    return {"w": plane, "e": STILL, "j": text}


def read(plane: str, text: str, shown: Sequence[str], events: int) -> Iterator[Row]:
    """A report is read: its replay leaves these atoms, and `rewind` to one event more says how many it has."""
    yield written("replay w j e", files(plane, text), atoms(*shown))
    yield refused(f"rewind w j {events + 1} e", files(plane, text), "j:1:1", "E84", events)


def rows() -> Iterator[Row]:
    """The rows."""
    for text, line, code, number in FAULTS:
        yield refused("replay w j e", files(WORLD, text), f"j:{line}:1", code, number)
    yield from read(WORLD, ABANDONED, [WALKER], 1)
    for plane, shown, events in WRITTEN:
        text = report(shown, events)
        yield written("step w e", files(plane, ""), text)
        yield from read(plane, text, shown, len(events))
