"""Calls of all forms but `gen` over small files, with what they write or why they are refused."""
from __future__ import annotations

from typing import Iterator

from feast_lab.lab.base.limits import ELEMENT_LIMIT, WORLD_LIMIT
from packing import Function, code_file, element
from program import File
from rows import Row, refused, written
from texts import atoms, lines, report, world

# The code file of the walker.
CODED = code_file(element("Walker", [Function()], ["PushNum 0", "PushNum 4", "Swap", "ReturnVoid"]))

# The files that are there, by their names.
FILES: dict[str, File] = {
    "empty": "",
    "byte": "@",
    "counter": "element Counter { Int(3) n; Void behave() { n++; } }",
    "part": "quark Part { EventWindow ew; Bool b; }",
    "twice": "element Twice { Int n; Bool n; Void behave() { } }",
    "bare": "element Walker { }",
    "walker": "element Walker { EventWindow ew; Void behave() { ew.swap(0, 4); } }",
    "stone": "element Stone { Void behave() { } }",
    "coded": CODED,
    "cut": CODED[:-1],
    "walk": world("try 0 3 4", "atom 3 4 Walker"),
    "rest": world("atom 3 4 Walker"),
    "elsewhere": world("try 0 0 0", "atom 3 4 Walker"),
    "border": world("try 0 7 4", "atom 7 4 Walker"),
    "garden": world("try 0 3 4", "atom 3 4 Walker", "atom 7 7 Stone"),
    "two": world("try 0 3 4", "try 1 28 4", "atom 3 4 Walker", "atom 28 4 Walker", tiles="2 1", size="16 16"),
    "narrow": world(size="7 8"),
    "taken": world("atom 3 4 Walker", "atom 3 4 Walker"),
    "strange": world("atom 3 4 Stone"),
    "report": report(["4 4 Walker", "7 7 Stone"], ["1 0 0 3 4"]),
    "other": report([], [f"1 0 0 3 4 {1:016x}"]),
}

USAGE = (
    "E00 usage: feast check|code|pack FILE.. | step|run WORLD FILE.. | steppack|runpack WORLD CODE | replay WORLD "
    "JOURNAL FILE.. | audit WORLD REPORT FILE.. | rewind WORLD REPORT K FILE.. | gen N\n"
)

# The lines of the counter and of the part, and the code of the walker and of the stone.
COUNTER = ["element Counter 1 3", "member n Int(3) 0 3"]
PART = ["quark Part 1", "member b Bool 0 1"]
WALKER = ["element Walker 1 4", "function 0 behave 0 0", "0 PushNum 0", "1 PushNum 4", "2 Swap", "3 ReturnVoid"]
STONE = ["element Stone 2 1", "function 0 behave 0 0", "0 ReturnVoid"]

# What a step to the east leaves, of one walker and of two.
MOVED = report(["4 4 Walker"], ["1 0 0 3 4"])
BOTH = report(["4 4 Walker", "29 4 Walker"], ["1 0 0 3 4", "1 1 0 28 4"])

# Calls that end well, with what they write.
DONE: list[tuple[str, str]] = [
    ("check counter", lines(*COUNTER)),
    ("check part empty counter", lines(*PART, *COUNTER)),
    ("check empty", ""),
    ("code walker stone", lines(*WALKER, *STONE)),
    ("run walk walker", MOVED),
    ("run rest walker", report(["3 4 Walker"], [])),
    ("run elsewhere walker", report(["3 4 Walker"], ["1 0 0 0 0"])),
    ("run border walker", report(["7 4 Walker"], ["1 0 0 7 4"])),
    ("run garden walker stone", report(["4 4 Walker", "7 7 Stone"], ["1 0 0 3 4"])),
    ("run two walker", BOTH),
    ("replay garden report walker stone", atoms("4 4 Walker", "7 7 Stone")),
    ("steppack two coded", BOTH),
    ("runpack two coded", BOTH),
    ("runpack walk coded", MOVED),
]

# Calls whose words have no form.
FORMLESS = ["check", "steppack walk coded coded"]

# Calls that are refused, with the place and the code: elements are refused before the names of a world, the world is
# read before the code file is loaded, and the code file is refused before the names of the world.
REFUSED: list[tuple[str, str, str]] = [
    ("check byte missing", "missing", "E01"),
    ("check twice byte", "byte:1:1", "E10"),
    ("check counter twice", "twice:1:29", "E30"),
    ("check part counter part", "part:1:7", "E30"),
    ("run empty walker", "empty:1:1", "E70"),
    ("run narrow walker", "narrow:3:1", "E72"),
    ("run taken walker", "taken:5:1", "E74"),
    ("run strange bare", "bare:1:9", "E33"),
    ("replay garden other walker stone", "other:4:1", "E83"),
    ("replay garden missing stone", "garden:5:1", "E73"),
    ("steppack narrow missing", "narrow:3:1", "E72"),
    ("runpack walk missing", "missing", "E01"),
    ("steppack walk walker", "walker:1:1", "E61"),
    ("runpack strange cut", "cut:1:68", "E62"),
    ("steppack strange coded", "strange:4:1", "E73"),
]

# A file of so many bytes in the place of a world or of an element file, and how the call `run w e` is refused.
LONG: list[tuple[str, int, str, str, int]] = [
    ("w", WORLD_LIMIT, "w:1:1", "E70", 0),
    ("w", WORLD_LIMIT + 1, "w", "E02", WORLD_LIMIT),
    ("e", ELEMENT_LIMIT, "w:5:1", "E73", 0),
    ("e", ELEMENT_LIMIT + 1, "e", "E02", ELEMENT_LIMIT),
]


def rows() -> Iterator[Row]:
    """The rows."""
    for words, output in DONE:
        yield written(words, FILES, output)
    for words in FORMLESS:
        yield Row(words, FILES, 2, USAGE)
    for words, place, code in REFUSED:
        yield refused(words, FILES, place, code)
    for name, length, place, code, number in LONG:
        files = {"w": FILES["walk"], "e": FILES["walker"], name: b" " * length}
        yield refused("run w e", files, place, code, number)
