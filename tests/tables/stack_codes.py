"""Small codes: which are valid, what they leave, and that an event which fails leaves its centre empty.

What they leave was worked out apart from the program.
"""
from __future__ import annotations

from typing import Iterator

from events import MAIN, WEST, fails, leaves, leaves_number, leaves_state, not_valid
from feast_lab.lab.base.limits import MOST_OPERANDS
from packing import ATOM, NOTHING, NUMBER, Function
from rows import Row

# Instructions that are valid code, and what that shows.
VALID: list[tuple[str, str]] = [
    ("code that is not reached", "ReturnVoid; PushNum 0; Pop; ReturnVoid"),
    ("a jump back straight after a turn", "Turn; Jump 0"),
    ("slots of their kinds", "PushNum 0; StoreLocal 0; PushAtom 0; StoreLocal 1; ReturnVoid"),
    ("a field that ends at bit 71", "LoadField 7 64 Int; Pop; ReturnVoid"),
    ("an array that ends at bit 71", "PushNum 0; LoadFieldAt 5 11 Bits 6; Pop; ReturnVoid"),
    ("the greatest operand", "PushNum 18446744073709551615; NotW 64; Pop; ReturnVoid"),
    ("a call", "Call 0; ReturnVoid"),
]

# What never ends of these fails.
ENDLESS = ["a jump back straight after a turn", "a call"]

# Instructions that are not, and why.
NOT_VALID: list[tuple[str, str]] = [
    ("an exchange of no operands", "Swap; ReturnVoid"),
    ("a jump to its own place", "Jump 0"),
    ("no end", "PushNum 0"),
    ("a jump back without a turn", "PushNum 0; Pop; Jump 0"),
    ("a jump to a jump back", "PushNum 0; JumpFalse 3; Turn; Jump 0"),
    ("a jump back on zero", "Turn; PushNum 0; JumpFalse 0; ReturnVoid"),
    ("lists that differ where ways meet", "PushNum 0; JumpFalse 3; PushNum 1; ReturnVoid"),
    ("lists that differ at a loop", "PushNum 0; Turn; Jump 0"),
    ("a number for an atom's slot", "PushNum 0; StoreLocal 1; ReturnVoid"),
    ("a slot that is not there", "LoadLocal 2; Pop; ReturnVoid"),
    ("an index of a part that is not there", "LoadPart 1 0 2 Unsigned; StorePartAt 1 0 3 Bits 4; ReturnVoid"),
    ("a part of a number's slot", "LoadPart 0 0 1 Bits; Pop; ReturnVoid"),
    ("a field that ends past bit 71", "LoadField 8 64 Int; Pop; ReturnVoid"),
    ("a width that is too small", "LoadField 0 1 Int; Pop; ReturnVoid"),
    ("a width that is too great", "LoadField 0 2 Bool; Pop; ReturnVoid"),
    ("an array that ends past bit 71", "PushNum 0; LoadFieldAt 6 11 Bits 6; Pop; ReturnVoid"),
    ("an array of no elements", "PushNum 0; LoadFieldAt 6 11 Bits 0; Pop; ReturnVoid"),
    ("a call of no function", "Call 1; ReturnVoid"),
    ("an answer of a function that has none", "PushNum 0; Return"),
]

# A function that calls another one, which begins at a place and has a result; whether that is valid.
CALLING: list[tuple[str, int, int, bool]] = [
    ("Call 1; Pop; ReturnVoid; PushNum 5; Return", 3, NUMBER, True),
    ("Call 1; Pop; ReturnVoid; PushNum 5; Return", 2, NUMBER, False),
    ("Call 1; Pop; ReturnVoid; PushNum 5; Return", 5, NUMBER, False),
    ("Call 1; Pop; ReturnVoid; PushNum 5; Return", 3, ATOM, False),
    ("Call 1; Pop; ReturnVoid; PushNum 5; Return", 3, NOTHING, False),
    ("Jump 3; Jump 3; ReturnVoid; PushNum 5; Return", 3, NUMBER, False),
]

# Instructions on operands, slots, fields, random words and sites, and the number that they leave. An atom of type 0 in
# a slot is not written; the first random word of seed 0 is 16294208416658607535.
LEFT: list[tuple[str, int]] = [
    ("PushNum 3; Dup; AddI", 6),
    ("PushNum 3; PushNum 4; Pop", 3),
    ("LoadLocal 0", 0),
    ("PushNum 8; StoreLocal 0; LoadLocal 0", 8),
    ("PushAtom 3; IsKind 3", 1),
    ("LoadSelf; IsKind 3", 0),
    ("PushNum -2; StoreField 3 4 Int; LoadField 3 4 Int", -2),
    ("PushNum 2; PushNum 6; StoreFieldAt 1 3 Unsigned 4; LoadField 7 3 Unsigned", 6),
    ("PushNum 5; StoreField 7 3 Unsigned; PushNum 2; LoadFieldAt 1 3 Unsigned 4", 5),
    ("PushAtom 3; StoreLocal 1; PushNum 5; StorePart 1 0 3 Bits; LoadPart 1 0 3 Bits", 5),
    ("PushNum 5; StorePart 1 0 3 Bits; LoadPart 1 0 3 Bits", 0),
    (
        "PushAtom 3; StoreLocal 1; PushNum 1; PushNum 5; StorePartAt 1 0 3 Bits 2; PushNum 1; LoadPartAt 1 0 3 "
        "Bits 2",
        5,
    ),
    ("PushNum 1000; RandCreate", 535),
    ("PushNum 5; RandOneIn", 1),
    ("PushNum 10; RandOneIn", 0),
    ("PushNum 4; IsLive", 1),
    ("PushNum 4; IsEmpty", 1),
    ("PushNum 0; IsEmpty", 0),
    ("PushNum 0; LoadSite; IsKind 1", 1),
]

# Instructions that fail, with the number of the failure: too many turns, too many calls, a division by 0, a site that
# is none, a range of no numbers, an empty centre, an index that is too large.
FAILING: list[tuple[str, int]] = [
    ("Turn; Jump 0", 1),
    ("PushNum 1; JumpFalse 4; Turn; Jump 0; ReturnVoid", 1),
    ("Call 0; ReturnVoid", 2),
    ("PushNum 1; PushNum 0; DivI; Pop; ReturnVoid", 3),
    ("PushNum 1; PushNum 0; RemV; Pop; ReturnVoid", 3),
    ("PushNum 41; LoadSite; Pop; ReturnVoid", 4),
    ("PushNum 0; PushNum -1; Swap; ReturnVoid", 4),
    ("PushNum 0; RandCreate; Pop; ReturnVoid", 5),
    ("PushNum 0; PushNum 1; Swap; LoadSelf; Pop; ReturnVoid", 6),
    ("PushNum 4; LoadFieldAt 0 3 Bits 4; Pop; ReturnVoid", 7),
    ("PushNum 4; PushNum 1; StorePartAt 1 0 3 Bits 4; ReturnVoid", 7),
]

# Where a number goes: zero jumps.
WAYS: list[tuple[int, int]] = [(0, 2), (-3, 1)]

# So many operands at once, and whether that is valid.
DEEP: list[tuple[int, bool]] = [(MOST_OPERANDS, True), (MOST_OPERANDS + 1, False)]

# A function of two parameters that gives their difference, called in the place of an instruction that ends the first.
SUB = Function("sub", 6, 2, (NUMBER, NUMBER, NUMBER), NUMBER)
DIFFERENCE = (
    "PushNum 100; PushNum 9; PushNum 4; Call 1; StoreField 0 64 Bits; {}; LoadLocal 0; LoadLocal 1; SubI; Return"
)

# What windows come to: the atom goes east, and an atom of type 3 is put at site 7.
WINDOWS: list[tuple[str, list[str]]] = [
    ("PushNum 0; PushNum 4; Swap; ReturnVoid", [WEST, f"9 8 A {0:018x}"]),
    ("PushNum 7; PushAtom 3; StoreSite; ReturnVoid", [WEST, f"8 8 A {0:018x}", f"7 9 C {0:018x}"]),
]


def valid(code: str, functions: list[Function]) -> Row:
    """This code is valid, and its event leaves the window as it was."""
    return leaves(code, [WEST, f"8 8 A {0:018x}"], functions)


def calls() -> Iterator[Row]:
    """Codes of two functions."""
    for code, first, answer, is_valid in CALLING:
        functions = [Function(), Function("other", first, answer=answer)]
        yield valid(code, functions) if is_valid else not_valid(code, functions)
    yield leaves_state(DIFFERENCE.format("ReturnVoid"), 5 << 7, [Function(), SUB])
    yield not_valid(DIFFERENCE.format("Jump 9"), [Function(), SUB])


def rows() -> Iterator[Row]:
    """The rows."""
    for shows, code in VALID:
        yield fails(code) if shows in ENDLESS else valid(code, [MAIN])
    for _, code in NOT_VALID:
        yield not_valid(code)
    yield from calls()
    for count, is_valid in DEEP:
        code = "PushNum 0; " * count + "Pop; " * count + "ReturnVoid"
        yield valid(code, [MAIN]) if is_valid else not_valid(code)
    for code, number in LEFT:
        yield leaves_number(code, number)
    for code, atoms in WINDOWS:
        yield leaves(code, atoms)
    for number, state in WAYS:
        code = f"PushNum {number}; JumpFalse 4; PushNum 1; Jump 5; PushNum 2; StoreField 0 64 Bits; ReturnVoid"
        yield leaves_state(code, state << 7)
    for code, _ in FAILING:
        yield fails(code)
