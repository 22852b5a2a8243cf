"""Where the numbers of a type end, how they are stored, and what other numbers are cast to.

All of it was worked out apart from the program.
"""
from __future__ import annotations

from typing import Iterator

from events import leaves_number, leaves_state
from rows import Row

# A type's kind and width, its least and its greatest number, and the bits of each.
ENDS: list[tuple[str, int, int, int, int, int]] = [
    ("Int", 2, -2, 1, 2, 1),
    ("Int", 3, -4, 3, 4, 3),
    ("Int", 8, -128, 127, 128, 127),
    ("Int", 31, -1073741824, 1073741823, 1073741824, 1073741823),
    ("Int", 32, -2147483648, 2147483647, 2147483648, 2147483647),
    ("Int", 33, -4294967296, 4294967295, 4294967296, 4294967295),
    ("Int", 40, -549755813888, 549755813887, 549755813888, 549755813887),
    ("Int", 48, -140737488355328, 140737488355327, 140737488355328, 140737488355327),
    ("Int", 63, -4611686018427387904, 4611686018427387903, 4611686018427387904, 4611686018427387903),
    ("Int", 64, -9223372036854775808, 9223372036854775807, 9223372036854775808, 9223372036854775807),
    ("Unsigned", 1, 0, 1, 0, 1),
    ("Unsigned", 2, 0, 3, 0, 3),
    ("Unsigned", 8, 0, 255, 0, 255),
    ("Unsigned", 31, 0, 2147483647, 0, 2147483647),
    ("Unsigned", 32, 0, 4294967295, 0, 4294967295),
    ("Unsigned", 33, 0, 8589934591, 0, 8589934591),
    ("Unsigned", 40, 0, 1099511627775, 0, 1099511627775),
    ("Unsigned", 48, 0, 281474976710655, 0, 281474976710655),
    ("Unsigned", 63, 0, 9223372036854775807, 0, 9223372036854775807),
    ("Unsigned", 64, 0, 18446744073709551615, 0, 18446744073709551615),
    ("Bits", 1, 0, 1, 0, 1),
    ("Bits", 2, 0, 3, 0, 3),
    ("Bits", 8, 0, 255, 0, 255),
    ("Bits", 31, 0, 2147483647, 0, 2147483647),
    ("Bits", 32, 0, 4294967295, 0, 4294967295),
    ("Bits", 33, 0, 8589934591, 0, 8589934591),
    ("Bits", 40, 0, 1099511627775, 0, 1099511627775),
    ("Bits", 48, 0, 281474976710655, 0, 281474976710655),
    ("Bits", 63, 0, 9223372036854775807, 0, 9223372036854775807),
    ("Bits", 64, 0, 18446744073709551615, 0, 18446744073709551615),
    ("Unary", 1, 0, 1, 0, 1),
    ("Unary", 2, 0, 2, 0, 3),
    ("Unary", 8, 0, 8, 0, 255),
    ("Unary", 31, 0, 31, 0, 2147483647),
    ("Unary", 32, 0, 32, 0, 4294967295),
    ("Unary", 33, 0, 33, 0, 8589934591),
    ("Unary", 40, 0, 40, 0, 1099511627775),
    ("Unary", 48, 0, 48, 0, 281474976710655),
    ("Unary", 63, 0, 63, 0, 9223372036854775807),
    ("Unary", 64, 0, 64, 0, 18446744073709551615),
]

# A kind, a width, a number, and what it is cast to.
CASTS: list[tuple[str, int, int, int]] = [
    ("Int", 4, 200, 7),
    ("Int", 4, -200, -8),
    ("Int", 32, -9223372036854775808, -2147483648),
    ("Unsigned", 3, -1, 0),
    ("Unsigned", 32, 18446744073709551615, 4294967295),
    ("Bits", 3, -1, 7),
    ("Bits", 8, -9223372036854775808, 0),
    ("Bits", 32, 18446744073709551615, 4294967295),
    ("Bool", 1, -7, 1),
    ("Bool", 1, 0, 0),
    ("Unary", 5, 6, 5),
    ("Unary", 5, -1, 0),
    ("Int", 33, 1099511627776, 4294967295),
    ("Int", 48, -1125899906842624, -140737488355328),
    ("Int", 64, 18446744073709551615, 9223372036854775807),
    ("Int", 64, -9223372036854775808, -9223372036854775808),
    ("Unsigned", 33, 18446744073709551615, 8589934591),
    ("Unsigned", 64, -9223372036854775808, 0),
    ("Unsigned", 64, 18446744073709551615, 18446744073709551615),
    ("Bits", 33, -1, 8589934591),
    ("Bits", 40, 1125899906842629, 5),
    ("Bits", 64, -9223372036854775808, 9223372036854775808),
    ("Bits", 64, -1, 18446744073709551615),
    ("Unary", 40, 41, 40),
    ("Unary", 64, 18446744073709551615, 64),
]


def kept(kind: str, width: int, number: int, bits: int) -> Row:
    """A number is stored in these bits and read again: the last bit of the state says that it is the same."""
    code = f"PushNum {number}; StoreField 0 {width} {kind}; LoadField 0 {width} {kind}; PushNum {number}; Eq"
    return leaves_state(f"{code}; StoreField 70 1 Bool; ReturnVoid", (bits << 71 - width) + 1)


def rows() -> Iterator[Row]:
    """The rows."""
    for kind, width, least, greatest, low, high in ENDS:
        yield kept(kind, width, least, low)
        yield kept(kind, width, greatest, high)
    for kind, width, number, becomes in CASTS:
        yield leaves_number(f"PushNum {number}; Fit {kind} {width}", becomes)
