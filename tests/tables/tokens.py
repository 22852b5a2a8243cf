"""Texts that have no tokens, and numbers with their values."""
from __future__ import annotations

from typing import Iterator

from feast_lab.lab.base.limits import LONGEST_NAME, MOST_TOKENS
from rows import Row, refused, written

# Texts with the place and the code of their first fault.
FAULTS: list[tuple[str, str, str]] = [
    ("@", "1:1", "E10"),
    ("a\n # ", "2:2", "E10"),
    ("\x0b", "1:1", "E10"),
    ("né", "1:2", "E10"),
    ("1a", "1:2", "E10"),
    ("00", "1:2", "E10"),
    ("0_", "1:2", "E10"),
    ("1uu", "1:3", "E10"),
    ("0b12", "1:4", "E10"),
    ("0X1", "1:2", "E10"),
    ("0x", "1:3", "E10"),
    ("0xg", "1:3", "E10"),
    ("0b\n", "1:3", "E10"),
    ("0bu", "1:3", "E10"),
    ("a /* b", "1:3", "E11"),
    ("/*/", "1:1", "E11"),
    ("\n  /* * /", "2:3", "E11"),
    ("4294967296", "1:1", "E12"),
    ("x 0x100000000u", "1:3", "E12"),
    ("4294967296x", "1:1", "E12"),
    ("0b111111111111111111111111111111111", "1:1", "E12"),
    ("99999999999999999999999999 @", "1:1", "E12"),
    ("@ /*", "1:1", "E10"),
    ("/* @", "1:1", "E11"),
]

# What stands behind as many signs as there may be tokens, and the first fault.
BEHIND_THE_MOST: list[tuple[str, str, str]] = [
    (" // more", "1:1", "E20"),
    (" ;", f"1:{MOST_TOKENS + 2}", "E13"),
    ("1a", f"1:{MOST_TOKENS + 1}", "E13"),
    ("0x", f"1:{MOST_TOKENS + 3}", "E10"),
]

# Names by their first letter and length. The longest is a name, which begins no file.
NAMES: list[tuple[str, int, str, str]] = [
    ("a", LONGEST_NAME, "1:1", "E20"),
    ("A", LONGEST_NAME + 1, f"1:{LONGEST_NAME + 1}", "E10"),
]

# Numbers as they are written, their values, and whether they are unsigned.
NUMBERS: list[tuple[str, int, bool]] = [("0", 0, False), ("120u", 120, True), ("0xFfu", 255, True), ("0b101", 5, False)]


def fourth(text: str, place: str, code: str) -> Row:
    """A text that is refused as the fourth file of a call."""
    return refused("check a b c d", {"a": "", "b": "", "c": "", "d": text}, f"d:{place}", code)


def numbers(number: str, value: int, unsigned: bool) -> Iterator[Row]:
    """The code that a number becomes, and whether it can be added to an Int."""
    text = f"element A {{ Unsigned u; Void behave() {{ u = {number}; }} }}"
    code = f"element A 1 3\nfunction 0 behave 0 0\n0 PushNum {value}\n1 StoreField 0 32 Unsigned\n2 ReturnVoid\n"
    yield written("code a", {"a": text}, code)
    text = f"element A {{ Int n; Void behave() {{ n = n + {number}; }} }}"
    if unsigned:
        yield refused("check a", {"a": text}, "a:1:42", "E51")
    else:
        yield written("check a", {"a": text}, "element A 1 32\nmember n Int(32) 0 32\n")


def rows() -> Iterator[Row]:
    """The rows."""
    for text, place, code in FAULTS:
        yield fourth(text, place, code)
    for behind, place, code in BEHIND_THE_MOST:
        yield fourth(";" * MOST_TOKENS + behind, place, code)
    for letter, length, place, code in NAMES:
        yield fourth(letter * length, place, code)
    for number, value, unsigned in NUMBERS:
        yield from numbers(number, value, unsigned)
