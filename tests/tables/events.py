"""An event of a small code, and what it leaves."""
from __future__ import annotations

from typing import Sequence

from packing import ATOM, NUMBER, Function, code_file, element
from rows import Row, refused, written
from texts import report, world

# An event at the centre of its window, with another atom west of it.
WEST = f"7 8 B {5:018x}"
WORLD = world("try 0 8 8", "atom 8 8 A", f"atom {WEST}", size="16 16")

# A function with two slots, a number and an atom.
MAIN = Function(slots=(NUMBER, ATOM))


def files(code: str, functions: Sequence[Function] = (MAIN,)) -> dict[str, str | bytes]:
    """The world, and the code file whose element A has this code; B and C do nothing."""
    others = [element(name, [Function()], ["ReturnVoid"]) for name in "BC"]
    acting = element("A", functions, code.split("; "))
    return {"w": WORLD, "c": code_file(acting, *others)}


def leaves(code: str, atoms: Sequence[str], functions: Sequence[Function] = (MAIN,)) -> Row:
    """An event of this code leaves these atoms."""
    return written("steppack w c", files(code, functions), report(atoms, ["1 0 0 8 8"]))


def leaves_state(code: str, state: int, functions: Sequence[Function] = (MAIN,)) -> Row:
    """An event of this code leaves this state, a number of 71 bits, in the acting atom."""
    return leaves(code, [WEST, f"8 8 A {state:018x}"], functions)


def leaves_number(code: str, number: int) -> Row:
    """An event of this code leaves this number as an operand: its low 64 bits are stored, and its sign behind them."""
    stored = f"{code}; Dup; StoreField 0 64 Bits; PushNum 0; Lt; StoreField 64 1 Bool; ReturnVoid"
    return leaves_state(stored, (number % (1 << 64) << 7) + ((number < 0) << 6))


def fails(code: str) -> Row:
    """An event of this code fails, so its centre becomes empty and all else stays as it was."""
    return leaves(code, [WEST])


def not_valid(code: str, functions: Sequence[Function] = (MAIN,)) -> Row:
    """This code is not valid."""
    return refused("steppack w c", files(code, functions), "c:1:11", "E63")
